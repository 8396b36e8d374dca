       identification division.
       program-id. starts.
       environment division.
       input-output section.
       file-control.
           select f assign to "ROWS" organization is indexed
               access dynamic record key is k status s.
       data division.
       file section.
       fd f.
       01 r.
          02 k.
             03 k1 pic x.
             03 k2 pic x.
       working-storage section.
       01 s pic xx.
       procedure division.
       main.
           open output f.
           move "A1" to k. write r. move "A2" to k. write r.
           move "B1" to k. write r. close f. open i-o f.
           move "B" to k1. start f key = k1. display s.
           read f next. display s k.
           move "A" to k1. start f key > k1. display s.
           read f next. display s k.
           move "A2" to k. start f key not < k. display s.
           read f next. display s k.
           move "C" to k1. start f key is equal to k1. display s.
           read f next. display s.
           move low-values to k. start f key greater than k. display s.
           read f next. display s k.
           delete f record. display s.
           read f next. display s k.
           move "ZZ" to k. delete f invalid key display "NONE".
           display s.
           rewrite r invalid key display "NONE". display s.
           move "A2" to k. write r. display s.
           stop run.
