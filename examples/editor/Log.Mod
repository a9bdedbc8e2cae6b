MODULE Log;  (* what the system has to say; the operator gets the log by mail after a failure *)

  IMPORT Kernel, Mail, T := Texts;

  CONST Limit = 8192;  (* characters; of a longer log the first half goes *)

  VAR text*: T.Text;

  PROCEDURE Char*(ch: CHAR);
  BEGIN
    IF text.length >= Limit THEN T.Delete(text, 0, Limit DIV 2) END;
    T.Insert(text, text.length, ch)
  END Char;

  PROCEDURE String*(s: ARRAY OF CHAR);
  BEGIN
    IF text.length + LEN(s) > Limit THEN T.Delete(text, 0, text.length DIV 2) END;
    T.Append(text, s)
  END String;

  PROCEDURE Int*(n: INTEGER);
    VAR digits: ARRAY 12 OF CHAR; k: INTEGER;
  BEGIN k := 0;
    IF n < 0 THEN Char("-"); n := -n END;
    REPEAT digits[k] := CHR(n MOD 10 + ORD("0")); n := n DIV 10; INC(k) UNTIL n = 0;
    WHILE k > 0 DO DEC(k); Char(digits[k]) END
  END Int;

  PROCEDURE Line*;
  BEGIN Char(0DX)
  END Line;

  (* The handler of traps. Without Mail.Post the operator would have to come and look. *)
  PROCEDURE Failure(number: INTEGER);
  BEGIN String("trap "); Int(number); String(" at "); Int(Kernel.Time()); Line;
    IF number # Kernel.noConnection THEN Mail.Post("operator", text) END
  END Failure;

BEGIN text := T.New(); Kernel.Install(Failure)
END Log.
