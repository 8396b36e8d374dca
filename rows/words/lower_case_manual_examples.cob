       identification division.
       program-id. manual.
       data division.
       working-storage section.
       01  customer.
           05  full-name  pic x(20) value "SMITH".
           05  balance    pic s9(5)v99 comp-3 value -12.50.
           05  filler     pic x.
               88  is-open value "O" "P" thru "R".
           05  payments   occurs 12 times pic 9(4) comp.
       01  sales.
           05  region occurs 2 times.
               10  region-name pic x(5).
               10  sold pic 9(4) occurs 12 times.
       01  invoice.
           05  invoice-line occurs 2 times.
               10  what pic x(4) value "BOLT".
               10  price pic 9(3) value 25.
           05  total pic 9(4) value 50.
       01  state pic x.
           88  opened value "O".
       01  mark pic 9.
           88  good values 1 3 thru 5.
       01  ordered.
           05  copies pic 9 value 2.
           05  label-text pic x(7) value "FRAGILE".
       01  row.
           05  x pic x(4) occurs 3 times.
       01  t pic x(6) value "AABBAA".
       01  n pic 9 value 0.
       77  customer-line pic x(8).
       77  today pic 9(6).
       77  hours pic 99 value 40.
       77  overtime pic 99 value 3.
       77  total-hours pic 99 value 20.
       77  rate pic 99v99 value 9.35.
       77  pay pic 9(4)v99.
       77  q pic 9.
       77  r pic 9.
       77  a pic 9 value 1.
       77  b pic 9 value 2.
       77  i pic 99.
       77  m pic 99 value 6.
       77  stock pic 9(3) value 15.
       77  returned pic 9 value 3.
       77  left-over pic 9(3).
       77  lines-left pic 9 value 2.
       77  last-line pic 9 value 2.
       procedure division.
       main-para.
           display full-name balance payments (12).
           accept customer-line
           accept today from date
           display customer-line "," today.
           add hours overtime to total-hours
               on size error display "TOO MANY HOURS"
           end-add
           subtract returned from stock giving left-over
           multiply 12 by stock
           compute pay rounded = rate * (hours + overtime * 1.5)
           divide 17 by 3 giving q rounded remainder r
           display total-hours " " pay " " q r " " left-over " " stock.
           move 0 to stock.
           if n = 0 continue else divide n into total end-if
           perform show-stock thru show-stock-exit.
           perform choose.
           move 2 to a.
           perform choose.
           move 2 to i.
           initialize invoice-line (i) total
           display invoice ".".
           inspect t tallying n for leading "A" all "B"
               replacing leading "A" by "B" all "B" by "C".
           display "(" t ")" n.
           move "ABC" to x (i) x (i + 1)
           display row ".".
           perform 2 times
               perform 3 times display "A" end-perform
           end-perform
           perform show-line lines-left times
           perform copies of ordered times
               display label-text
           end-perform
           perform show-title.
           perform line-out thru line-exit
               varying i from 1 by 1 until i > last-line.
           set opened to true
           display state.
           move 4 to mark.
           if good display "WELL DONE".
           move 2 to mark.
           if good display "WRONG".
           move all "0" to sales.
           move 250 to sold (1, 5)
           add sold (1, m - 1) 10
               giving sold (2, m) sold of region (2 12)
           display region (2).
           stop run.
       show-stock.
           if stock = 0 display "NONE LEFT".
       show-stock-exit.
           exit.
       choose.
           if a = 1
               if b = 1 display "P" else display "Q" end-if
           else
               display "R"
           end-if.
       show-line.
           display "A LINE".
       show-title.
           display "TITLE".
       line-out.
           display "LINE " i.
       line-exit.
           exit.
