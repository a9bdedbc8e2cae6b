MODULE Viewers;  (* the display's parts, one above the other, and the messages that they take *)

  IMPORT Display;

  CONST
    MinHeight = 40;
    title = 16;  (* height of the bar at the top *)

  TYPE
    Viewer* = POINTER TO ViewerDesc;
    Message* = RECORD END;
    KeyMessage* = RECORD (Message) ch*: CHAR END;
    MouseMessage* = RECORD (Message) keys*: SET; x*, y*: INTEGER END;
    RestoreMessage* = RECORD (Message) END;
    Handler* = PROCEDURE (v: Viewer; VAR m: Message);
    ViewerDesc* = RECORD
        y*, h*: INTEGER;  (* of what lies below the bar *)
        handle: Handler;
        below: Viewer
      END;

  VAR
    focus*: Viewer;  (* the one that takes the keys *)
    top: Viewer;

  PROCEDURE Restore*(v: Viewer);
    VAR m: RestoreMessage;
  BEGIN
    Display.ReplConst(Display.background, 0, v.y, Display.Width, v.h, Display.replace);
    Display.ReplConst(Display.white, 0, v.y + v.h, Display.Width, title, Display.replace);
    v.handle(v, m)
  END Restore;

  PROCEDURE Open*(v: Viewer; handle: Handler);  (* takes the lower half of the topmost *)
    VAR half: INTEGER;
  BEGIN v.handle := handle;
    IF top = NIL THEN v.y := 0; v.h := Display.Height - title; v.below := NIL; top := v
    ELSE half := (top.h - title) DIV 2; ASSERT(half >= MinHeight);
      v.y := top.y; v.h := half; v.below := top.below; top.below := v;
      INC(top.y, half + title); DEC(top.h, half + title); Restore(top)
    END;
    focus := v; Restore(v)
  END Open;

  PROCEDURE This*(y: INTEGER): Viewer;
    VAR v: Viewer;
  BEGIN v := top;
    WHILE (v # NIL) & (y < v.y) DO v := v.below END
    RETURN v
  END This;

  PROCEDURE Send*(v: Viewer; VAR m: Message);
  BEGIN
    IF v # NIL THEN v.handle(v, m) END
  END Send;

  PROCEDURE PassFocus*(v: Viewer);
  BEGIN
    IF (v # NIL) & (v # focus) THEN focus := v; Restore(v) END
  END PassFocus;

BEGIN top := NIL; focus := NIL
END Viewers.
