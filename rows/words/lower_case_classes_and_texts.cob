       identification division.
       program-id. p.
       data division.
       working-storage section.
       01  g.
           05  t pic x(3) occurs 8 times.
       77  i pic 9.
       procedure division.
           move "ABC" to t (1).
           move "abc" to t (2).
           move "aBc" to t (3).
           move "123" to t (4).
           move "A 1" to t (5).
           move "   " to t (6).
           move "00 " to t (7).
           move "X* " to t (8).
           perform asked varying i from 1 by 1 until i > 8.
           stop run.
       asked.
           if t (i) numeric display "T" no advancing else display "F" no
               advancing.
           if t (i) is numeric display "T" no advancing else display "F"
               no advancing.
           if t of g (i) is not numeric display "T" no advancing else
               display "F" no advancing.
           if t (i) alphabetic display "T" no advancing else display "F"
               no advancing.
           if t (i) is alphabetic-lower display "T" no advancing else
               display "F" no advancing.
           if t (i) alphabetic-upper display "T" no advancing else
               display "F" no advancing.
           if t (i) not alphabetic display "T" no advancing else display
               "F" no advancing.
           if t (i) is not alphabetic-upper display "T" no advancing
               else display "F" no advancing.
           if spaces = t (i) display "T" no advancing else display "F"
               no advancing.
           if t (i) = all "0" display "T" no advancing else display "F"
               no advancing.
           if 'X' < t (i) display "T" no advancing else display "F" no
               advancing.
           if t (i) > "aB" display "T" no advancing else display "F" no
               advancing.
           display " ".
