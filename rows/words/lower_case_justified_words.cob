       identification division.
       program-id. p.
       data division.
       working-storage section.
       01  a pic x(3) just.
       01  b pic x(3) justified right.
       01  c pic x(3) just right.
       01  d pic x(3).
       procedure division.
           move "A" to a b c d.
           display a "/" b "/" c "/" d "/".
           stop run.
