// Reads an object of a card here, by P/Invoke.
using System;
using System.Runtime.InteropServices;

static class Program {
    struct Handle { public byte Live; public IntPtr Held; }

    const string Library = "libgalliumtoad.so.0.3";
    [DllImport(Library)] static extern IntPtr gt_text(int code);
    [DllImport(Library)] static extern int gt_card_new(ref Handle card);
    [DllImport(Library)] static extern int gt_card_app(ref Handle card, byte[] aid, UIntPtr n);
    [DllImport(Library)] static extern int gt_card_object(
        ref Handle card, uint tag, byte[] value, UIntPtr n, int locked);
    [DllImport(Library)] static extern int gt_card_finish(ref Handle card);
    [DllImport(Library)] static extern int gt_session_start(ref Handle session, ref Handle card);
    [DllImport(Library)] static extern int gt_session_select(ref Handle session, byte[] aid,
        UIntPtr n, out ushort status, byte[] data, UIntPtr room, out UIntPtr count);
    [DllImport(Library)] static extern int gt_session_get(ref Handle session, uint tag,
        out ushort status, byte[] data, UIntPtr room, out UIntPtr count);
    [DllImport(Library)] static extern void gt_session_free(ref Handle session);

    static void Check(int code) {
        if (code < 0) throw new Exception(Marshal.PtrToStringAnsi(gt_text(code)));
    }

    static void Main() {
        byte[] aid = { 0xA0, 0, 0, 0, 3, 0x10, 0x10 }, joe = { 0x4A, 0x4F, 0x45 };
        byte[] data = new byte[8197];
        Handle card = new Handle(), session = new Handle();
        UIntPtr size = (UIntPtr)aid.Length, room = (UIntPtr)data.Length, count;
        ushort status;
        Check(gt_card_new(ref card));
        Check(gt_card_app(ref card, aid, size));
        Check(gt_card_object(ref card, 0x5F20, joe, (UIntPtr)joe.Length, 0));
        Check(gt_card_finish(ref card));
        Check(gt_session_start(ref session, ref card));
        Check(gt_session_select(ref session, aid, size, out status, data, room, out count));
        Check(gt_session_get(ref session, 0x5F20, out status, data, room, out count));
        string text = BitConverter.ToString(data, 0, (int)count).Replace("-", "");
        Console.WriteLine("{0:X4} {1}", status, text);
        gt_session_free(ref session);
    }
}
