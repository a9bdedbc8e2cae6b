MODULE Input;  (* keyboard and mouse *)

  IMPORT SYSTEM;

  CONST
    left* = 2; middle* = 1; right* = 0;  (* keys of the mouse *)
    QueueLength = 16;
    mouse = -40; keyboard = -36;  (* addresses of devices *)
    ready = 28;  (* bit of the mouse's word that says that the keyboard has a code *)

  VAR
    queue: ARRAY QueueLength OF CHAR;
    in, out, count: INTEGER;

  PROCEDURE Decode(code: INTEGER): CHAR;  (* 0X for a key that stands for nothing *)
    VAR ch: CHAR;
  BEGIN
    CASE code OF
      0 .. 13H, 3CH .. 0FFH: ch := 0X
    | 14H .. 2DH: ch := CHR(ORD("a") + code - 14H)
    | 2EH .. 37H: ch := CHR(ORD("0") + code - 2EH)
    | 38H: ch := " "
    | 39H: ch := 0DX
    | 3AH: ch := 8X
    | 3BH: ch := 1BX
    END
    RETURN ch
  END Decode;

  PROCEDURE Peek;  (* puts what the keyboard has into the queue *)
    VAR code: INTEGER; ch: CHAR;
  BEGIN
    IF SYSTEM.BIT(mouse, ready) & (count < QueueLength) THEN
      SYSTEM.GET(keyboard, code); ch := Decode(code MOD 100H);
      IF ch # 0X THEN queue[in] := ch; in := (in + 1) MOD QueueLength; INC(count) END
    END
  END Peek;

  PROCEDURE Available*(): INTEGER;
  BEGIN Peek
    RETURN count
  END Available;

  PROCEDURE Read*(VAR ch: CHAR);
  BEGIN
    REPEAT Peek UNTIL count > 0;
    ch := queue[out]; out := (out + 1) MOD QueueLength; DEC(count)
  END Read;

  PROCEDURE Mouse*(VAR keys: SET; VAR x, y: INTEGER);
    VAR w: INTEGER;
  BEGIN SYSTEM.GET(mouse, w);
    keys := {};
    IF ODD(ASR(w, 24)) THEN INCL(keys, right) END;
    IF ODD(ASR(w, 25)) THEN INCL(keys, middle) END;
    IF ODD(ASR(w, 26)) THEN INCL(keys, left) END;
    x := w MOD 400H; y := ASR(w, 12) MOD 400H
  END Mouse;

BEGIN in := 0; out := 0; count := 0
END Input.
