       identification division.
       program-id. p.
       data division.
       working-storage section.
       01  a picture is 9(3)v99.
       01  b pic is s9.
       01  c picture x(2).
       procedure division.
           move 12.345 to a.
           move -5 to b.
           move "XYZ" to c.
           display a b c.
           stop run.
