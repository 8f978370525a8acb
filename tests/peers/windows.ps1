<#
Answers the cases of tests/peers/samba by AuthzAccessCheck of Windows. NOT YET RUN, nor compiled: it was written on
a machine without Windows and without PowerShell.

    tests/peers/samba --write cases.json                    where Hudarin is
    powershell -File windows.ps1 cases.json answers.json    on Windows, by any user
    tests/peers/samba --answers answers.json                where Hudarin is, with the same --seed and --count

Each line of cases.json is a case, as cases.py describes it, and each line of answers.json its answer:

    {"id": "v17", "mapped": ["granted", 1179785, 1179785]}

"granted", "denied", "no privilege" or the number of another error; the granted mask; and the bits of the request that
are granted where each is the whole request. Descriptor and request have their generic bits mapped, since
AuthzAccessCheck maps nothing. A context made of a SID has no privileges, so no case has any.
#>
param([Parameter(Mandatory)] [string] $Cases, [Parameter(Mandatory)] [string] $Answers)
$ErrorActionPreference = 'Stop'

Add-Type -TypeDefinition @'
using System;
using System.ComponentModel;
using System.Runtime.InteropServices;
using System.Security.Principal;

public static class Authz
{
    const uint NoAudit = 1, SkipTokenGroups = 2;
    const uint Enabled = 4, DenyOnly = 16;
    const uint MaximumAllowed = 0x02000000;
    const int AccessDenied = 5, PrivilegeNotHeld = 1314;

    [StructLayout(LayoutKind.Sequential)]
    struct Luid { public uint Low; public int High; }

    [StructLayout(LayoutKind.Sequential)]
    struct SidAndAttributes { public IntPtr Sid; public uint Attributes; }

    [StructLayout(LayoutKind.Sequential)]
    struct Request
    {
        public uint Desired;
        public IntPtr PrincipalSelf, ObjectTypes;
        public uint ObjectTypeCount;
        public IntPtr OptionalArguments;
    }

    [StructLayout(LayoutKind.Sequential)]
    struct Reply { public uint Count; public IntPtr Granted, Evaluation, Error; }

    [DllImport("authz.dll", SetLastError = true, CharSet = CharSet.Unicode)]
    static extern bool AuthzInitializeResourceManager(uint flags, IntPtr access, IntPtr compute, IntPtr free,
        string name, out IntPtr manager);

    [DllImport("authz.dll", SetLastError = true)]
    static extern bool AuthzInitializeContextFromSid(uint flags, byte[] sid, IntPtr manager, IntPtr expires,
        Luid id, IntPtr arguments, out IntPtr context);

    [DllImport("authz.dll", SetLastError = true)]
    static extern bool AuthzAddSidsToContext(IntPtr context, SidAndAttributes[] sids, uint count,
        SidAndAttributes[] restricting, uint restrictingCount, out IntPtr made);

    [DllImport("authz.dll", SetLastError = true)]
    static extern bool AuthzAccessCheck(uint flags, IntPtr context, ref Request request, IntPtr audit,
        byte[] descriptor, IntPtr others, uint otherCount, ref Reply reply, IntPtr results);

    [DllImport("authz.dll")]
    static extern bool AuthzFreeContext(IntPtr context);

    static IntPtr manager;

    static void Require(bool done) { if (!done) throw new Win32Exception(Marshal.GetLastWin32Error()); }

    static byte[] Bytes(string sid)
    {
        var made = new SecurityIdentifier(sid);
        var bytes = new byte[made.BinaryLength];
        made.GetBinaryForm(bytes, 0);
        return bytes;
    }

    static SidAndAttributes[] Sids(string[] sids, string[] states)
    {
        var made = new SidAndAttributes[sids.Length];
        for (int i = 0; i < sids.Length; i++)
        {
            var bytes = Bytes(sids[i]);
            made[i].Sid = Marshal.AllocHGlobal(bytes.Length);
            Marshal.Copy(bytes, 0, made[i].Sid, bytes.Length);
            made[i].Attributes = states == null || states[i] == "on" ? Enabled : states[i] == "deny" ? DenyOnly : 0;
        }
        return made;
    }

    static void Free(SidAndAttributes[] sids) { foreach (var one in sids) Marshal.FreeHGlobal(one.Sid); }

    // A context of the user alone, with these groups and restricting SIDs.
    public static IntPtr Context(string user, string[] groups, string[] states, string[] restricting)
    {
        IntPtr none = IntPtr.Zero;
        if (manager == none)
            Require(AuthzInitializeResourceManager(NoAudit, none, none, none, "peers", out manager));
        IntPtr alone, context;
        byte[] who = Bytes(user);
        Require(AuthzInitializeContextFromSid(SkipTokenGroups, who, manager, none, new Luid(), none, out alone));
        var first = Sids(groups, states);
        var second = Sids(restricting, null);
        bool done = AuthzAddSidsToContext(alone, first, (uint)first.Length,
            second.Length == 0 ? null : second, (uint)second.Length, out context);
        int error = Marshal.GetLastWin32Error();
        Free(first);
        Free(second);
        AuthzFreeContext(alone);
        if (!done) throw new Win32Exception(error);
        return context;
    }

    public static void Close(IntPtr context) { AuthzFreeContext(context); }

    // The error of one check, and the granted mask.
    static int Check(IntPtr context, byte[] descriptor, uint asked, out uint granted)
    {
        IntPtr room = Marshal.AllocHGlobal(12);
        for (int i = 0; i < 12; i += 4) Marshal.WriteInt32(room, i, 0);
        IntPtr none = IntPtr.Zero;
        var request = new Request { Desired = asked };
        var reply = new Reply { Count = 1, Granted = room };
        reply.Evaluation = IntPtr.Add(room, 4);
        reply.Error = IntPtr.Add(room, 8);
        bool done = AuthzAccessCheck(0, context, ref request, none, descriptor, none, 0, ref reply, none);
        int failure = Marshal.GetLastWin32Error();
        granted = (uint)Marshal.ReadInt32(room, 0);
        int error = Marshal.ReadInt32(room, 8);
        Marshal.FreeHGlobal(room);
        return done ? error : failure;
    }

    // "granted MASK BITS", or how it was denied.
    public static string Answer(IntPtr context, byte[] descriptor, uint asked)
    {
        uint granted, ignored, single = 0;
        int error = Check(context, descriptor, asked, out granted);
        for (int bit = 0; bit < 32; bit++)
        {
            uint one = 1u << bit;
            bool named = (asked & ~MaximumAllowed & one) != 0;
            if (named && Check(context, descriptor, one, out ignored) == 0) single |= one;
        }
        string how = error == 0 ? "granted" : error == PrivilegeNotHeld ? "no privilege" : "denied";
        if (error != 0 && error != PrivilegeNotHeld && error != AccessDenied) how = error.ToString();
        return string.Format("[\"{0}\", {1}, {2}]", how, error == 0 ? granted : 0, single);
    }
}
'@

function ConvertFrom-Hex([string] $Text) {
    $bytes = New-Object byte[] ($Text.Length / 2)
    for ($i = 0; $i -lt $bytes.Length; $i++) { $bytes[$i] = [Convert]::ToByte($Text.Substring(2 * $i, 2), 16) }
    , $bytes
}

$lines = foreach ($line in [IO.File]::ReadLines((Resolve-Path $Cases))) {
    $case = $line | ConvertFrom-Json
    $groups = [string[]] @($case.groups | ForEach-Object { $_[0] })
    $states = [string[]] @($case.groups | ForEach-Object { $_[1] })
    $context = [Authz]::Context($case.user, $groups, $states, [string[]] @($case.restricting))
    try {
        $answer = [Authz]::Answer($context, (ConvertFrom-Hex $case.mapped_sd), [uint32] $case.mapped_asked)
    } finally {
        [Authz]::Close($context)
    }
    '{{"id": "{0}", "mapped": {1}}}' -f $case.id, $answer
}
$path = [IO.Path]::Combine((Get-Location).Path, $Answers)
[IO.File]::WriteAllLines($path, [string[]] @($lines))
"$(@($lines).Count) answers by Windows $([Environment]::OSVersion.Version)"
