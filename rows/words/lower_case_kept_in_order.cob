       identification division.
       program-id. p.
       data division.
       working-storage section.
       01  whole.
           05  eight pic x(8).
       procedure division.
       main.
           display "KEPT".
           stop run.
       kept-ones.
           string eight delimited by size into eight
               on overflow continue
               not on overflow display eight
           end-string.
