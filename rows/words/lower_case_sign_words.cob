       identification division.
       program-id. p.
       data division.
       working-storage section.
       01  g.
           05  a pic s99 leading value -12.
           05  b pic s99 sign leading separate value -12.
           05  c pic s99 sign is trailing separate character value -12.
           05  d pic s99 trailing value -12.
           05  e pic s99 value -12.
           05  f pic s99 leading separate value 12.
       procedure division.
           display g.
           stop run.
