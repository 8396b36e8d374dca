       identification division.
       program-id. p.
       data division.
       working-storage section.
       01  t pic x(6) value "000120".
       01  a pic x(5) value "AAAAA".
       01  c pic x(6).
       01  f.
           05  filler pic x(3) value high-values.
           05  filler pic x(5) value "0""0 0".
           05  filler pic x(2) value low-values.
       01  n pic 99 value 0.
       01  m pic 99 value 0.
       01  l pic 99 value 0.
       procedure division.
       main.
           inspect t tallying n for leading "0".
           inspect t replacing leading "0" by space.
           inspect a tallying m for all "AA".
           display n "(" t ")" m.
           move "ABCABC" to c.
           inspect c replacing all "A" by "X" after initial "B".
           display c.
           move "ABCABC" to c.
           inspect c replacing first "C" by "-".
           display c.
           move "ABCABC" to c.
           inspect c replacing characters by "*" before initial "C".
           display c.
           move "ABCABC" to c.
           move zero to n m l.
           inspect c tallying n for all "B" all "C".
           display n.
      *    figurative constants are one character
           move zero to n.
           inspect f tallying n for leading high-value
               m for all zero after quote before low-value
               l for characters after spaces.
           display n m l.
           inspect f replacing all high-values by "H" low-values by "L"
               quotes by space characters by zero after space.
           display "(" f ")".
           stop run.
