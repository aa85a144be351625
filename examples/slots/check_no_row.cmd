check check.cmd
