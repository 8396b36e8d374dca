       identification division.
       program-id. p.
       data division.
       working-storage section.
       77  n pic 9 value 3.
       77  zero-turns pic 9(4) value 0.
       77  below pic s9(3) value -2.
       77  in-binary pic s9(5) comp value 2.
       77  in-packed pic s9(3) packed-decimal value 2.
       77  behind-sign pic s9(2) sign leading separate value 1.
       77  i pic 9 value 2.
       01  g.
           05  t pic 9 occurs 3.
       01  h.
           05  m pic 9 value 2.
       01  k.
           05  m pic 9 value 4.
       77  lines-shown pic 99 value 0.
       procedure division.
       main-para.
           perform n times display "A" with no advancing end-perform.
           display " N".
           perform zero-turns times display "B" end-perform.
           perform below times display "C" end-perform.
           perform show-p in-binary times.
           display " BINARY".
           perform show-p thru show-q in-packed times.
           display " PACKED".
           perform show-p through show-p behind-sign times.
           display " SIGN".
           move 1 to t (1).
           move 3 to t (2).
           move 2 to t (3).
           perform t (i) times display "E" with no advancing
               add 1 to i
           end-perform.
           display " TABLE " i.
           move 2 to i.
           perform show-q t (i + 1) times.
           display " TABLE".
           perform m of h times
               perform m in k times display "F" with no advancing
               end-perform
               display "-" with no advancing
           end-perform.
           display " M".
      *    The item is read once: what a turn stores changes nothing.
           perform n times
               move 9 to n
               add 1 to lines-shown
           end-perform.
           display lines-shown n.
           perform show-and-clear n times.
           display lines-shown n.
           stop run.
       show-p.
           display "P" with no advancing.
       show-q.
           display "Q" with no advancing.
       show-and-clear.
           add 1 to lines-shown.
           move 0 to n.
