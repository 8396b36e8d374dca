"""The trials of refuse-memory, by their names. A number is the seed of a random program."""
import shutil

from hostile.alternate_keys import DATA, NAME, ROW, AlternateKeys
from hostile.refused_commands import SECTORS, ConsoleTrial, MakingTrial, MigrationTrial, RunTrial, VolumeTrial
from power_cuts.cases import Case, make_earlier, make_halves
from power_cuts.product import Failure

LAYOUTS = ("trees", "halves")
SOURCES = ("size_errors", "perform_overlapping_ranges", "duplicates_in_order")
CONSOLE = f"{DATA}/console_lines"
ROWS = 100
MIGRATION = "migration of trees"
FEW = ["compile duplicates_in_order", "run over trees", "run over halves", "list of trees", "dump of trees", MIGRATION]
ALL = ["format", *(f"compile {source}" for source in SOURCES), "run with a console",
       *(f"{what} {layout}" for layout in LAYOUTS for what in ("run over", "second run over", "list of", "dump of")), MIGRATION]


def make(name, product):
    """The trial of a name, in the product's folder."""
    if isinstance(name, int):
        return random_run(name, product)
    if name == "format":
        return MakingTrial(product, name, "format", "made", SECTORS, made="made")
    words = name.split()
    if words[0] == "compile":
        return MakingTrial(product, name, "compile", f"{DATA}/{words[1]}.cob", "made", made="made")
    if words[-1] == "console":
        return run_with_a_console(name, product)
    return of_a_volume(name, product, words[-1])


def must(product, *words):
    ran = product.do(*words)
    if ran.status:
        raise Failure(f"{words[0]}: {ran}")


def run_with_a_console(name, product):
    volume, image = f"{product.folder}/volume", f"{product.folder}/image"
    must(product, "format", volume, SECTORS)
    must(product, "compile", f"{CONSOLE}.cob", image)
    return ConsoleTrial(product, name, volume, image, f"{CONSOLE}.in")


def of_a_volume(name, product, layout):
    """A trial of a command on a volume. All but the first run work on what the first one leaves."""
    volume, image = f"{product.folder}/volume", f"{product.folder}/image"
    must(product, "format", volume, SECTORS)
    if layout == "halves":
        make_halves(volume, int(SECTORS))
    if name == MIGRATION:
        make_earlier(volume)
    must(product, "compile", f"{ROW}.cob", image)
    first = AlternateKeys()
    first.compare_with_row()
    if name.startswith("run "):
        return RunTrial(product, name, volume, image, first)
    must(product, "run", image, volume)
    if name.startswith("second run "):
        return RunTrial(product, name, volume, image, AlternateKeys(first.states[-1]))
    if name == MIGRATION:
        return MigrationTrial(product, name, volume)
    if name.startswith("list "):
        return VolumeTrial(product, name, volume, "list", volume)
    return VolumeTrial(product, name, volume, "dump", volume, NAME)


def random_run(seed, product):
    """A random program over a volume with the files of earlier ones, or with a file of a hundred rows."""
    case = Case(product.program, seed, product.folder)
    case.make_volume(share_of_halves=0.5)
    if case.random.random() < 0.5:
        case.fill(ROWS)
    for _ in range(case.random.choice([0, 2])):
        program = case.next_program(20)
        case.run_whole(program)
        case.content = program.states[-1]
    program = case.next_program(20)
    case.compile(program)
    image = shutil.copyfile(case.image, f"{product.folder}/image")
    return RunTrial(product, f"random program {seed}", case.volume, image, program)
