       identification division.
       program-id. p.
       data division.
       working-storage section.
       77  a pic 99v9 blank when zero.
       77  b pic z9.9 blank when zero.
       77  c pic +9 blank when zero.
       procedure division.
           display "KEPT".
           stop run.
