       identification division.
       program-id. row.
       author. somebody "who asks.
           and answers.
       date-written. today.
       procedure division.
           display "ONE".
           stop run.
