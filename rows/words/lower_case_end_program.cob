       identification division.
       program-id. row.
       procedure division.
           display "ONE".
           stop run.
       end program row.
