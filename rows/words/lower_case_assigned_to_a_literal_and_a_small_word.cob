       identification division.
       program-id. p.
       environment division.
       input-output section.
       file-control.
           select optional f assign to 'a b' status s.
           select g assign y.
       data division.
       file section.
       fd  f.
       01  r pic x(3).
       fd  g.
       01  t pic xx.
       working-storage section.
       77  s pic xx.
       77  k pic 9(3).
       procedure division.
           open input f.
           display s.
           close f.
           open output f.
           move "ABC" to r.
           write r.
           close f.
           open output g.
           move "DE" to t.
           write t.
           stop run.
