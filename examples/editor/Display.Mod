MODULE Display;  (* the raster display: one bit a dot, y upwards *)

  IMPORT SYSTEM;

  CONST
    black* = 0; white* = 1;
    replace* = 0; paint* = 1; invert* = 2;  (* modes *)
    Width* = 1024; Height* = 768;
    base = 0E7F00H;  (* address of the lowest line *)
    Span = Width DIV 8;  (* bytes of a line *)

  VAR background*: INTEGER;

  PROCEDURE Dot*(color, x, y, mode: INTEGER);
    VAR adr: INTEGER; s: SET;
  BEGIN
    IF (x >= 0) & (x < Width) & (y >= 0) & (y < Height) THEN
      adr := base + y * Span + x DIV 32 * 4; SYSTEM.GET(adr, s);
      IF (mode = invert) & (x MOD 32 IN s) OR (mode # invert) & (color = black) THEN EXCL(s, x MOD 32)
      ELSE INCL(s, x MOD 32)
      END;
      SYSTEM.PUT(adr, s)
    END
  END Dot;

  PROCEDURE ReplConst*(color, x, y, w, h, mode: INTEGER);
    VAR i, k: INTEGER;
  BEGIN
    FOR k := y TO y + h - 1 DO
      FOR i := x TO x + w - 1 DO Dot(color, i, k, mode) END
    END
  END ReplConst;

  (* A pattern is its width and its height, a byte each, and then its lines from below, in whole bytes. *)
  PROCEDURE CopyPattern*(color, pattern, x, y, mode: INTEGER);
    VAR w, h, bits: BYTE; i, k, adr: INTEGER;
  BEGIN SYSTEM.GET(pattern, w); SYSTEM.GET(pattern + 1, h); adr := pattern + 2;
    FOR k := 0 TO h - 1 DO
      FOR i := 0 TO w - 1 DO
        IF i MOD 8 = 0 THEN SYSTEM.GET(adr, bits); INC(adr) END;
        IF ODD(ASR(bits, i MOD 8)) THEN Dot(color, x + i, y + k, mode)
        ELSIF mode = replace THEN Dot(background, x + i, y + k, mode)
        END
      END
    END
  END CopyPattern;

  (* Moves a block of whole lines up or down, as far as it is to scroll. *)
  PROCEDURE Scroll*(y, h, dy: INTEGER);
    VAR k: INTEGER;
  BEGIN
    IF dy > 0 THEN
      FOR k := y + h - 1 TO y BY -1 DO
        SYSTEM.COPY(base + k * Span, base + (k + dy) * Span, Span DIV 4)
      END
    ELSE
      FOR k := y TO y + h - 1 DO
        SYSTEM.COPY(base + k * Span, base + (k + dy) * Span, Span DIV 4)
      END
    END
  END Scroll;

BEGIN background := black; ReplConst(background, 0, 0, Width, Height, replace)
END Display.
