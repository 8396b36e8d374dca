      * A stock in an indexed file, with the shelf as an alternate key.
      * Each line of the console is a movement: R receives pieces of an
      * article, S sells some, D drops the article. Then the stock is
      * listed by articles, and the articles of one shelf.
       identification division.
       program-id. stock.
       environment division.
       input-output section.
       file-control.
           select stock-file assign to "STOCK"
               organization is indexed
               access mode is dynamic
               record key is article
               alternate record key is shelf with duplicates
               file status is state.
       data division.
       file section.
       fd  stock-file.
       01  stock-row.
           05  article         pic x(8).
           05  shelf           pic x(3).
           05  pieces          pic 9(5).
           05  unit-price      pic 9(3)v99.
       working-storage section.
       01  state               pic xx.
       01  movement.
           05  kind            pic x.
               88  is-receipt  value "R".
               88  is-sale     value "S".
               88  is-dropped  value "D".
               88  is-last     value space.
           05  m-article       pic x(8).
           05  m-shelf         pic x(3).
           05  m-pieces        pic 9(5).
           05  m-price         pic 9(3)v99.
       01  at-end              pic x value "N".
           88  no-more         value "Y".
       01  article-value       pic 9(7)v99.
       01  total-value         pic 9(7)v99 value 0.
       01  print-line.
           05  p-article       pic x(10).
           05  p-shelf         pic x(5).
           05  p-pieces        pic zz,zz9.
           05  p-price         pic zzz9.99.
           05  p-value         pic zzz,zz9.99.
       procedure division.
       main section.
       begin.
           open output stock-file.
           close stock-file.
           open i-o stock-file.
           accept movement.
           perform move-stock until is-last.
           perform list-all.
           move "B02" to shelf.
           perform list-shelf.
           close stock-file.
           stop run.
       movements section.
       move-stock.
           move m-article to article.
           evaluate true
               when is-receipt  perform receive-pieces
               when is-sale     perform sell-pieces
               when is-dropped  perform drop-article
               when other       display "WHAT IS " kind
           end-evaluate.
           accept movement.
       receive-pieces.
           read stock-file
               invalid key
                   move m-shelf to shelf
                   move m-pieces to pieces
                   move m-price to unit-price
                   write stock-row
                       invalid key display "NOT WRITTEN " state
                   end-write
               not invalid key
                   add m-pieces to pieces
                       on size error display "TOO MANY OF " article
                   end-add
                   rewrite stock-row
           end-read.
       sell-pieces.
           read stock-file
               invalid key display "NO SUCH ARTICLE " article
               not invalid key
                   if m-pieces > pieces
                       display "ONLY " pieces " OF " article
                   else
                       subtract m-pieces from pieces
                       rewrite stock-row
                   end-if
           end-read.
       drop-article.
           delete stock-file
               invalid key display "NOTHING TO DROP " article
           end-delete.
       lists section.
       list-all.
           move low-values to article.
           start stock-file key is not less than article
               invalid key set no-more to true
           end-start.
           perform list-next until no-more.
           move total-value to p-value.
           display "TOTAL                       " p-value.
       list-next.
           read stock-file next record
               at end set no-more to true
               not at end perform list-one
           end-read.
       list-one.
           multiply pieces by unit-price giving article-value.
           add article-value to total-value.
           move article to p-article.
           move shelf to p-shelf.
           move pieces to p-pieces.
           move unit-price to p-price.
           move article-value to p-value.
           display print-line.
       list-shelf.
           display "ON SHELF " shelf.
           move "N" to at-end.
           read stock-file key is shelf
               invalid key set no-more to true
           end-read.
           perform until no-more or shelf not = "B02"
               display "  " article pieces
               read stock-file next record
                   at end set no-more to true
               end-read
           end-perform.
