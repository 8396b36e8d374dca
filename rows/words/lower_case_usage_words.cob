       identification division.
       program-id. p.
       data division.
       working-storage section.
       01  g.
           05  a usage is display pic 9(4) value 8481.
           05  b pic 9(4) comp value 8481.
           05  c pic 9(4) usage computational value 8481.
           05  d pic 9(4) binary value 8481.
           05  e pic 9(5) usage packed-decimal value 41424.
           05  f pic 9(5) comp-3 value 41424.
           05  h pic 9(5) usage is computational-3 value 41424.
           05  i pic 9(4) display value 8481.
       procedure division.
           display g.
           stop run.
