# Makes a package of the program under test, and looks at it: make.sh TOOL
set -e
COBOL=$(command -v cobol) "$1" --unproved made > path
deb=$(cat path)
dpkg-deb --field "$deb" Package Depends Description | sed 's/ (>= [0-9.]*)//' | grep -E 'Package|Depends|Description|PROVED'
dpkg-deb --field "$deb" Version | grep -q '~unproved$' && echo "its version says that it is unproved"
dpkg-deb --extract "$deb" root
root/usr/bin/cobol --version
root/usr/bin/cobol format V 1024
root/usr/bin/cobol compile root/usr/share/doc/rendzukat/examples/hello.cob I
root/usr/bin/cobol run I V
echo "the page of the manual, completions, examples, manual: $(ls -d root/usr/share/man/man1/cobol.1.gz \
    root/usr/share/bash-completion/completions/cobol root/usr/share/zsh/vendor-completions/_cobol \
    root/usr/share/doc/rendzukat/docs/LANGUAGE.md.gz | wc -l)"
manual=root/usr/share/doc/rendzukat/docs
for name in $(zcat "$manual"/*.gz root/usr/share/man/man1/*.gz | sed 's,[\]-,-,g' | grep -oE 'examples/[a-z]+[a-z.-]*[a-z]' | sort -u); do
    [ -e "$manual/../$name" ] || echo "the manual names a file that the package lacks: $name"
done
