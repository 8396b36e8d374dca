       identification division.
       program-id. hello.
       procedure division.
           display zeroes no advancing.
