           DISPLAY "AB
      - "CD".
