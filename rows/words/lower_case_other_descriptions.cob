       identification division.
       program-id. others.
       environment division.
       input-output section.
       file-control.
           select f assign to "ROWS" organization is indexed
               record key is k alternate key a status s.
           select same-file assign to "ROWS" indexed access random
               record key is k2 alternate key a2 status s.
           select without assign to "ROWS" indexed
               record key is k3 status s.
           select repeats assign to "ROWS" indexed
               record key is k4 alternate key a4 duplicates status s.
           select placed assign to "ROWS" indexed
               record key is k5 alternate key a5 status s.
           select longer assign to "ROWS" indexed
               record key is k6 alternate key a6 status s.
           select numbered assign to "ROWS" relative status s.
           select seq assign to "ROWS" status s.
       data division.
       file section.
       fd f.
       01 r.
          02 k pic xx.
          02 a pic xx.
       fd same-file.
       01 r2.
          02 k2 pic 99.
          02 a2.
             03 a21 pic x.
             03 a22 pic 9.
       fd without.
       01 r3.
          02 k3 pic xx.
          02 a3 pic xx.
       fd repeats.
       01 r4.
          02 k4 pic xx.
          02 a4 pic xx.
       fd placed.
       01 r5.
          02 a5 pic xx.
          02 k5 pic xx.
       fd longer.
       01 r6.
          02 k6 pic xx.
          02 a6 pic xx.
          02 filler pic x.
       fd numbered.
       01 r7 pic x(4).
       fd seq.
       01 r8 pic x(4).
       working-storage section.
       01 s pic xx.
       procedure division.
       main.
           open output f. move "12AB" to r. write r. close f.
           open input same-file. display "SAME " s.
           close same-file. display s.
           open input without. display "WITHOUT " s.
           open input repeats. display "REPEATS " s.
           open i-o placed. display "PLACED " s.
           open input longer. display "LONGER " s.
           open input numbered. display "NUMBERED " s.
           open extend seq. display "SEQ " s.
           close seq. display s.
           open input f. display s. read f. display s r. close f.
           open output seq. display "ANEW " s. close seq.
           open input f. display "NO LONGER " s.
           stop run.
