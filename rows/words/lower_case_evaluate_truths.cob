       identification division.
       program-id. p.
       data division.
       working-storage section.
       01  k pic s9(4) comp value 7.
       01  w pic x(5) value "AAAAA".
       01  s pic 9 value 5.
           88 low values 0 thru 3.
           88 middle values 4 5 6.
       procedure division.
           evaluate w is alphabetic
               when k is negative display "WRONG"
               when k is positive display "BOTH TRUE".
           evaluate w is numeric
               when k is positive display "WRONG"
               when k is negative display "BOTH FALSE".
           evaluate low
               when middle display "WRONG"
               when not middle display "NEITHER".
           evaluate not low
               when not middle display "WRONG"
               when (middle) display "NOT LOW".
           evaluate (s = 5) also not s = 5
               when false also any display "WRONG"
               when true also true display "WRONG"
               when true also false display "PARENTHESES".
           evaluate true also false
               when true also true display "WRONG"
               when false also false display "WRONG"
               when s = 5 also s = 4 display "BOTH".
