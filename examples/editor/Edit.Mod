MODULE Edit;  (* the editor: viewers of texts, keys, and commands by the keys of the mouse *)

  IMPORT Input, Display, Fonts, Files, Texts, Viewers, Printer, Spelling, Log, Sync;

  CONST
    home = "home";  (* the machine with the documents that aren't here *)
    LineLength = 128;
    back = 8X; return = 0DX; escape = 1BX;

  TYPE
    Frame = POINTER TO FrameDesc;
    FrameDesc = RECORD (Viewers.ViewerDesc)
        text: Texts.Text;
        name: Files.Name;
        caret: INTEGER;  (* a place in the text *)
        next: Frame
      END;

  VAR
    frames: Frame;
    done: BOOLEAN;

  PROCEDURE Draw(f: Frame);
    VAR r: Texts.Reader; ch: CHAR; x, y: INTEGER; font: Fonts.Font;
  BEGIN font := f.text.font; x := 0; y := f.y + f.h - font.height;
    Texts.OpenReader(r, f.text, 0); Texts.Read(r, ch);
    WHILE ~r.eot & (y >= f.y) DO
      IF r.pos - 1 = f.caret THEN Display.ReplConst(Display.white, x, y, 2, font.height, Display.invert) END;
      IF ch = return THEN x := 0; DEC(y, font.height)
      ELSE Display.CopyPattern(Display.white, Fonts.Pattern(font, ch), x, y, Display.replace);
        INC(x, Fonts.Width(font, ch))
      END;
      Texts.Read(r, ch)
    END
  END Draw;

  PROCEDURE Type(f: Frame; ch: CHAR);
  BEGIN
    IF ch # back THEN Texts.Insert(f.text, f.caret, ch); INC(f.caret)
    ELSIF f.caret > 0 THEN DEC(f.caret); Texts.Delete(f.text, f.caret, f.caret + 1)
    END
  END Type;

  PROCEDURE Print(f: Frame);
    VAR r: Texts.Reader; line: ARRAY LineLength OF CHAR; ch: CHAR; k: INTEGER;
  BEGIN Printer.Open(Fonts.Default); Printer.Line(f.name); Printer.UseFont(f.text.font); k := 0;
    Texts.OpenReader(r, f.text, 0); Texts.Read(r, ch);
    WHILE ~r.eot DO line[k] := 0X;
      IF (ch = return) OR (k = LineLength - 1) OR (Printer.Width(line) > Printer.PageWidth) THEN
        Printer.Line(line); k := 0
      END;
      IF ch # return THEN line[k] := ch; INC(k) END;
      Texts.Read(r, ch)
    END;
    line[k] := 0X; Printer.Line(line); Printer.Close(1)
  END Print;

  PROCEDURE Check(f: Frame);  (* goes to the next unknown word; the one at the caret becomes known *)
    VAR beg: INTEGER; word: Files.Name;
  BEGIN Spelling.Next(f.text, f.caret, beg, word);
    IF beg = f.caret THEN Spelling.Accept(word)
    ELSIF beg >= 0 THEN f.caret := beg; Log.String("unknown: "); Log.String(word); Log.Line
    END
  END Check;

  PROCEDURE Handle(v: Viewers.Viewer; VAR m: Viewers.Message);
    VAR f: Frame;
  BEGIN f := v(Frame);
    CASE m OF
      Viewers.KeyMessage: Type(f, m.ch)
    | Viewers.MouseMessage:
        IF Input.middle IN m.keys THEN Print(f)
        ELSIF Input.right IN m.keys THEN Check(f)
        END
    | Viewers.RestoreMessage: Draw(f)
    END
  END Handle;

  PROCEDURE Changed(t: Texts.Text; beg: INTEGER);
    VAR f: Frame;
  BEGIN f := frames;
    WHILE f # NIL DO
      IF f.text = t THEN Viewers.Restore(f) END;
      f := f.next
    END
  END Changed;

  PROCEDURE Open*(name: Files.Name);
    VAR f: Frame; file: Files.File;
  BEGIN NEW(f); f.name := name; f.caret := 0; f.text := Texts.New();
    file := Files.Old(name);
    IF file = NIL THEN Sync.Fetch(home, name, file) END;
    IF file # NIL THEN Texts.Load(f.text, file) ELSE Log.String("new text"); Log.Line END;
    f.text.notify := Changed; f.next := frames; frames := f; Viewers.Open(f, Handle)
  END Open;

  PROCEDURE StoreAll*;
    VAR f: Frame;
  BEGIN f := frames;
    WHILE f # NIL DO Texts.Store(f.text, f.name); f := f.next END;
    Spelling.Close
  END StoreAll;

  PROCEDURE Run*;
    VAR key: Viewers.KeyMessage; mouse: Viewers.MouseMessage;
  BEGIN
    REPEAT
      IF Input.Available() > 0 THEN
        Input.Read(key.ch); done := key.ch = escape;
        IF ~done THEN Viewers.Send(Viewers.focus, key) END
      END;
      Input.Mouse(mouse.keys, mouse.x, mouse.y);
      IF Input.left IN mouse.keys THEN Viewers.PassFocus(Viewers.This(mouse.y))
      ELSIF mouse.keys # {} THEN Viewers.Send(Viewers.This(mouse.y), mouse)
      END
    UNTIL done;
    StoreAll
  END Run;

BEGIN frames := NIL; done := FALSE
END Edit.
