       identification division.
       program-id. p.
       environment division.
       input-output section.
       file-control.
           select f assign to "F" indexed access dynamic record key k
               alternate record key v with duplicates status s.
           select g assign to "G" status sg.
           select h assign to "H" status sg.
           select j assign to "J" status sg.
       data division.
       file section.
       fd  f.
       01  r.
           05  k pic x.
           05  v pic x.
           05  filler pic x.
       fd  g.
       01  rg pic x(3).
       fd  h.
       01  rh pic x(3).
       fd  j.
       01  rj pic x(3).
       working-storage section.
       77  s pic xx.
       77  sg pic xx.
       77  n pic 9.
       01  b.
           05  bt pic x(3) occurs 2 times.
       77  i pic 9 value 2.
       procedure division.
       cases.
           perform set-anew perform case-1 display "|".
           perform set-anew perform case-2 display "|".
           perform set-anew perform case-3 display "|".
           perform set-anew perform case-4 display "|".
           perform set-anew perform case-5 display "|".
           perform set-anew perform case-6 display "|".
           perform set-anew perform case-7 display "|".
           perform set-anew perform case-8 display "|".
           perform set-anew perform case-9 display "|".
           perform set-anew perform case-10 display "|".
           perform set-anew perform case-11 display "|".
           perform set-anew perform case-12 display "|".
           perform set-anew perform case-13 display "|".
           perform set-anew perform case-14 display "|".
           perform set-anew perform case-15 display "|".
           perform set-anew perform case-16 display "|".
           perform set-anew perform case-17 display "|".
           perform set-anew perform case-18 display "|".
           perform set-anew perform case-19 display "|".
           perform set-anew perform case-20 display "|".
           perform set-anew perform case-21 display "|".
           perform set-anew perform case-22 display "|".
           perform set-anew perform case-23 display "|".
           perform set-anew perform case-24 display "|".
           perform set-anew perform case-25 display "|".
           perform set-anew perform case-26 display "|".
           perform set-anew perform case-27 display "|".
           perform set-anew perform case-28 display "|".
           perform set-anew perform case-29 display "|".
           perform set-anew perform case-30 display "|".
           perform set-anew perform case-31 display "|".
           perform set-anew perform case-32 display "|".
           perform set-anew perform case-33 display "|".
           stop run.
       set-anew.
           close f g h j.
           open output f g.
           move "1Bx" to r.
           write r.
           move "2Ay" to r.
           write r.
           move "3Bz" to r.
           write r.
           move "g" to rg.
           write rg.
           close f g.
           open i-o f input g.
           read g.
           move "1Bx" to r.
           move "1AqXYZ" to b.
           move 9 to n.
       case-1.
           close f g.
           open input f display s no advancing.
       case-2.
           close f g.
           open input f, g output h extend j display s no advancing
               display sg no advancing.
           open input h display sg no advancing.
       case-3.
           close f g.
           open input f input g close f g exit display s no advancing
               display sg no advancing.
           close f g display s no advancing display sg no advancing.
       case-4.
           read f display s r no advancing.
       case-5.
           read f next record display s r no advancing.
       case-6.
           read f next into bt of b (1) end-read continue display s b no
               advancing.
       case-7.
           move "9" to k.
           read f record into bt (1) key is k invalid key display "1" no
               advancing.
       case-8.
           read f record into bt (2) key is k invalid key display "1" no
               advancing end-read display b no advancing.
       case-9.
           move "A" to v.
           read f key v not invalid display "1" no advancing display r
               no advancing.
       case-10.
           move "C" to v.
           read f key v not invalid display "1" no advancing display r
               no advancing.
       case-11.
           read g at end display "1" no advancing.
       case-12.
           read g end continue display "1" no advancing not end display
               "2" no advancing end-read display "3" no advancing.
       case-13.
           read g at end add 1 to n not at end display "1" no advancing.
       case-14.
           read f next at end add 1 to n not at end display "1" no
               advancing.
       case-15.
           read g at end add 0 to n not size error display "1" no
               advancing not at end display "2" no advancing.
       case-16.
           read f next at end add 0 to n not size error display "1" no
               advancing not at end display "2" no advancing.
       case-17.
           read g at end read f next at end display "1" no advancing not
               at end display "2" no advancing not at end display "3" no
               advancing.
       case-18.
           read f next at end read g at end display "1" no advancing not
               at end display "2" no advancing not at end display "3" no
               advancing.
       case-19.
           read g at end write r invalid key display "1" no advancing
               not at end display "2" no advancing.
       case-20.
           read f next at end write r invalid key display "1" no
               advancing not at end display "2" no advancing.
       case-21.
           read g at end move "7" to k write r not invalid key display
               "1" no advancing end-write display "2" no advancing.
       case-22.
           move "4Cw" to r.
           write r display s no advancing.
       case-23.
           write r from bt (2) invalid key display "1" no advancing not
               invalid key display "2" no advancing end-write display
               "3" no advancing display r no advancing.
       case-24.
           write r from bt (1) invalid key display "1" no advancing not
               invalid key display "2" no advancing end-write display
               "3" no advancing.
       case-25.
           rewrite r from bt (1) invalid display "1" no advancing
               end-rewrite display s no advancing rewrite r display s no
               advancing.
       case-26.
           move "9" to k.
           rewrite r invalid display "1" no advancing end-rewrite
               display "2" no advancing.
       case-27.
           delete f record invalid key display "1" no advancing
               end-delete display s no advancing delete f display s no
               advancing.
       case-28.
           move "9" to k.
           delete f invalid key display "1" no advancing end-delete
               display "2" no advancing.
       case-29.
           start f display s no advancing read f next display r no
               advancing.
       case-30.
           start f key is not less than v of r invalid key display "1"
               no advancing end-start read f next display r no advancing
               read f next display r no advancing.
       case-31.
           start f key > k read f next display r no advancing start f
               key is greater than or equal to k read f next display r
               no advancing start f key equal k read f next display r no
               advancing.
       case-32.
           move "B" to v.
           start f key = v not invalid key display "1" no advancing
               end-start display "2" no advancing.
       case-33.
           move "C" to v.
           start f key = v not invalid key display "1" no advancing
               end-start display "2" no advancing.
