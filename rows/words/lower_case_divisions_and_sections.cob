       identification division.
       program-id. p.
       environment division.
       configuration section.
       source-computer. any-machine.
       object-computer. any-machine.
       data division.
       working-storage section.
       01  customer.
           05  full-name  pic x(20) value "SMITH".
           05  balance    value -12.50 pic s9(5)v99 comp-3.
           05  filler     pic x.
               88  is-open value "O" "P" thru "R".
           05  payments   occurs 12 times pic 9(4) comp.
       01  summary redefines customer.
           05  shown      pic $zz,zz9.99.
           05  signed     pic s9(4) sign is leading separate.
       77  counter sync pic 9(4) value zero.
       procedure division.
       first-part section.
       one.
           display "A".
       two.
           display "B".
       second-part section.
       three.
           display "C".
           stop run.
