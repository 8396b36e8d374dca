       identification division.
       program-id. p.
       data division.
       working-storage section.
       01  g.
           05  a pic x sync value "A".
           05  b pic 9(4) comp synchronized left value 8481.
           05  c pic 9(9) sync right comp value 555885346.
       procedure division.
           display g.
           stop run.
