           DISPLAY "AB
      -    'CD".
