       identification division.
       program-id. p.
       data division.
       working-storage section.
       01  n pic 9(3) value 1.
       01  total pic 9(5) value 0.
       01  r pic 9.
       01  c pic 9.
       01  done pic x value "N".
           88  is-done value "Y".
       procedure division.
           perform until n > 100
               multiply 2 by n
           end-perform
           display n.
           perform until n > 100
               display "WRONG"
           end-perform.
           perform test after until n > 100
               display "ONCE"
           end-perform.
           perform test before varying r from 1 by 1 until r > 3
               perform varying c from r by -1 until c = 0
                   display r c " " no advancing
                   add r c to total
               end-perform
           end-perform
           display total " " r c.
           perform until is-done
               subtract 50 from n
                   on size error move "Y" to done
               end-subtract
               if n < 50
                   move "Y" to done
               else
                   display "STILL " n
               end-if
           end-perform
           display n done.
           perform varying n from 5 by 5 until n > 20 or total > 40
               add n to total
               display total
           end-perform
           display n.
           perform 2 times
               perform with test after varying c from 8 by 1 until c = 9
                   display c
               end-perform
           end-perform
           stop run.
