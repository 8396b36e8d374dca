       identification division.
       program-id. nonum.
       environment division.
       input-output section.
       file-control.
           select f assign to "ROWS" organization is relative
               access mode is dynamic relative key is n
               file status is s.
       data division.
       file section.
       fd f.
       01 r pic x(3).
       working-storage section.
       01 s pic xx.
       01 g.
          02 n pic 9(10).
       procedure division.
       main.
           open output f. close f. open i-o f.
           move 999999999 to n. move "MAX" to r. write r. display s.
           move 1000000000 to n. write r. display s.
           read f. display s. rewrite r. display s. delete f. display s.
           start f key not less than n. display s.
           move spaces to g. write r. display s.
           read f. display s.
           start f key > n. display s.
           read f next. display s n r.
           move 0 to n. start f key not less n. display s.
           read f next. display s n r.
           close f.
           stop run.
