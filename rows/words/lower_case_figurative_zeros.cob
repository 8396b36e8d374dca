       identification division.
       program-id. hello.
       procedure division.
           display zeros no advancing.
