       identification division.
       program-id. p.
       data division.
       working-storage section.
       77  a pic s99.
       77  b pic s99.
       77  c pic s99.
       77  d pic s9(3)v9.
       77  n pic 9.
       77  m pic 9.
       77  e pic s99.
       77  f pic s99v9.
       01  g.
           05  t pic s99 occurs 2 times.
       01  h.
           05  r occurs 2 times.
               10  u pic s99 occurs 3 times.
       procedure division.
       cases.
           perform set-anew perform case-1 display "|".
           perform set-anew perform case-2 display "|".
           perform set-anew perform case-3 display "|".
           perform set-anew perform case-4 display "|".
           perform set-anew perform case-5 display "|".
           perform set-anew perform case-6 display "|".
           perform set-anew perform case-7 display "|".
           perform set-anew perform case-8 display "|".
           perform set-anew perform case-9 display "|".
           perform set-anew perform case-10 display "|".
           perform set-anew perform case-11 display "|".
           perform set-anew perform case-12 display "|".
           perform set-anew perform case-13 display "|".
           perform set-anew perform case-14 display "|".
           perform set-anew perform case-15 display "|".
           perform set-anew perform case-16 display "|".
           perform set-anew perform case-17 display "|".
           perform set-anew perform case-18 display "|".
           perform set-anew perform case-19 display "|".
           perform set-anew perform case-20 display "|".
           perform set-anew perform case-21 display "|".
           perform set-anew perform case-22 display "|".
           perform set-anew perform case-23 display "|".
           perform set-anew perform case-24 display "|".
           perform set-anew perform case-25 display "|".
           perform set-anew perform case-26 display "|".
           perform set-anew perform case-27 display "|".
           perform set-anew perform case-28 display "|".
           perform set-anew perform case-29 display "|".
           perform set-anew perform case-30 display "|".
           perform set-anew perform case-31 display "|".
           perform set-anew perform case-32 display "|".
           perform set-anew perform case-33 display "|".
           perform set-anew perform case-34 display "|".
           perform set-anew perform case-35 display "|".
           perform set-anew perform case-36 display "|".
           perform set-anew perform case-37 display "|".
           perform set-anew perform case-38 display "|".
           perform set-anew perform case-39 display "|".
           perform set-anew perform case-40 display "|".
           perform set-anew perform case-41 display "|".
           perform set-anew perform case-42 display "|".
           perform set-anew perform case-43 display "|".
           perform set-anew perform case-44 display "|".
           perform set-anew perform case-45 display "|".
           perform set-anew perform case-46 display "|".
           perform set-anew perform case-47 display "|".
           perform set-anew perform case-48 display "|".
           perform set-anew perform case-49 display "|".
           perform set-anew perform case-50 display "|".
           perform set-anew perform case-51 display "|".
           perform set-anew perform case-52 display "|".
           perform set-anew perform case-53 display "|".
           perform set-anew perform case-54 display "|".
           perform set-anew perform case-55 display "|".
           stop run.
       set-anew.
           move 2 to a.
           move 3 to b.
           move 4 to c.
           move 5 to d.
           move 9 to n.
           move 9 to m.
           move 0 to e f u (1 1) u (1 2) u (2 1) u (2 2) u (2 3) u (1
               3).
           move 6 to t (1).
           move 7 to t (2).
           move 8 to u (1 2).
       case-1.
           add 1 to a display a no advancing.
       case-2.
           add a -2.5 zeros to b e rounded d display b no advancing
               display e no advancing display d no advancing.
       case-3.
           add a b giving c display c no advancing.
       case-4.
           add 1.25 giving f rounded e end-add display f no advancing
               display e no advancing.
       case-5.
           add a to b giving c display a no advancing display b no
               advancing display c no advancing.
       case-6.
           add a 2 to 3 giving b c rounded display b no advancing
               display c no advancing.
       case-7.
           add a to u of h (1 a) giving e display e no advancing.
       case-8.
           add a to t (1) c display t (1) no advancing display c no
               advancing.
       case-9.
           subtract 1 from a display a no advancing.
       case-10.
           subtract a 2 from b rounded c end-subtract display b no
               advancing display c no advancing.
       case-11.
           subtract a b from c giving d display c no advancing display d
               no advancing.
       case-12.
           subtract a from 9 giving c d rounded display a no advancing
               display c no advancing display d no advancing.
       case-13.
           multiply 2 by a display a no advancing.
       case-14.
           multiply a by b rounded c display a no advancing display b no
               advancing display c no advancing.
       case-15.
           multiply a by b giving c display b no advancing display c no
               advancing.
       case-16.
           multiply a by 3 giving b c end-multiply display b no
               advancing display c no advancing.
       case-17.
           divide 2 into a display a no advancing.
       case-18.
           divide a into b c rounded display b no advancing display c no
               advancing.
       case-19.
           divide a into b giving c d display c no advancing display d
               no advancing.
       case-20.
           divide a by b giving d e display d no advancing display e no
               advancing.
       case-21.
           divide a into 9 giving b rounded remainder c display b no
               advancing display c no advancing.
       case-22.
           divide 9 by a giving b remainder t (1) end-divide display b
               no advancing display t (1) no advancing display t (2) no
               advancing.
       case-23.
           compute a = b display a no advancing.
       case-24.
           compute e rounded b equal d / 2 display e no advancing
               display b no advancing.
       case-25.
           compute a = - b * (c + 2) end-compute display a no advancing.
       case-26.
           add 1 to n size error display "1" no advancing.
       case-27.
           add 1 to a size error display "1" no advancing.
       case-28.
           add b 9 giving n on size error display "1" no advancing
               display "2" no advancing.
       case-29.
           add 1 to a not size error display "1" no advancing end-add
               display "2" no advancing.
       case-30.
           add 1 to n not size error display "1" no advancing end-add
               display "2" no advancing.
       case-31.
           add 1 to a size error display "1" no advancing not on size
               error display "2" no advancing.
       case-32.
           add 1 to n size error display "1" no advancing not on size
               error display "2" no advancing.
       case-33.
           subtract 99 from n rounded size error display "1" no
               advancing end-subtract display "2" no advancing.
       case-34.
           subtract a from b giving c not size error display "1" no
               advancing.
       case-35.
           multiply a by n size error display "1" no advancing
               end-multiply display "2" no advancing.
       case-36.
           multiply a by b giving c size error display "1" no advancing
               end-multiply display "2" no advancing.
       case-37.
           divide a into b size error display "1" no advancing
               end-divide display "2" no advancing.
       case-38.
           divide e into b size error display "1" no advancing
               end-divide display "2" no advancing.
       case-39.
           divide a by e giving c remainder d on size error display "1"
               no advancing.
       case-40.
           compute n = n + 1 size error display "1" no advancing
               end-compute display "2" no advancing.
       case-41.
           compute a = b - 1 size error display "1" no advancing
               end-compute display "2" no advancing.
       case-42.
           add 1 to n size error add 2 to b not size error display "1"
               no advancing.
       case-43.
           add 1 to a size error add 2 to b not size error display "1"
               no advancing.
       case-44.
           add 1 to n size error add 2 to b end-add not size error
               display "1" no advancing.
       case-45.
           add 1 to a size error add 2 to b end-add not size error
               display "1" no advancing.
       case-46.
           add 1 to n size error add 2 to b not size error display "1"
               no advancing not size error display "2" no advancing.
       case-47.
           add 1 to a size error add 2 to b not size error display "1"
               no advancing not size error display "2" no advancing.
       case-48.
           add 1 to a not size error add 2 to n size error display "1"
               no advancing.
       case-49.
           add 1 to n not size error add 2 to m size error display "1"
               no advancing.
       case-50.
           add 1 to n size error add 2 to b end-add end-add display "1"
               no advancing.
       case-51.
           add 1 to a size error add 2 to b end-add end-add display "1"
               no advancing.
       case-52.
           add 1 to n size error add 2 to b end-add display "1" no
               advancing.
       case-53.
           add 1 to a size error add 2 to b end-add display "1" no
               advancing.
       case-54.
           add 1 to a size error subtract 2 from b end-add display "1"
               no advancing.
       case-55.
           add 1 to a add 2 to n size error display "1" no advancing.
