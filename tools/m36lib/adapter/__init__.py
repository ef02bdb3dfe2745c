"""The debug adapter: a session of the debugger (m36lib.debugging) as an editor sees it, by the
Debug Adapter Protocol. All that it shows of the machine are answers of `m36 debug`."""
