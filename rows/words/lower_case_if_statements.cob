       identification division.
       program-id. p.
       data division.
       working-storage section.
       01  x pic 9.
       01  y pic 9.
       01  n pic s9(3) value -5.
       procedure division.
           move 1 to x
           move 2 to y.
           if x = 1 if y = 1 display "P" else display "Q"
               else display "R".
           move 2 to x.
           if x = 1 if y = 1 display "P" else display "Q"
               else display "R".
           move 1 to x.
           move 1 to y.
           if x = 1 if y = 1 display "P" else display "Q"
               else display "R".
           if x = 1
               if y = 2
                   display "INNER"
               end-if
               display "BEHIND"
           else
               display "OTHER"
           end-if
           if x = 2 then
               display "WRONG"
           else
               if n < 0 then
                   display "NEGATIVE"
                   add 10 to n on size error display "WRONG"
                       not on size error display n
                   end-add
               end-if
               display "LAST"
           end-if.
           if x = 9 display "WRONG".
           if x = 1 continue else display "WRONG".
           if x = 9 display "WRONG" else continue.
           if x = 1 stop run.
           display "WRONG".
