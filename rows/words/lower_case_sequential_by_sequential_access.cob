       identification division.
       program-id. p.
       environment division.
       input-output section.
       file-control.
           select f assign x organization sequential access sequential.
       data division.
       file section.
       fd  f.
       01  r pic x(3).
       working-storage section.
       77  s pic xx.
       77  k pic 9(3).
       procedure division.
           open output f.
           move "ABC" to r.
           write r.
           close f.
           stop run.
