       identification division.
       program-id. p.
       data division.
       working-storage section.
       77  t pic x(2).
       77  p pic 9 value 1.
       procedure division.
       main.
           string "ABC" delimited by size into t pointer p
               on overflow display t p
               not on overflow display "NO".
           stop run.
