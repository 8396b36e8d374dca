       MOVE ''
