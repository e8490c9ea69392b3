package main

import (
	"context"
	"io"

	"davserve/internal/transfer"
)

const importUsage = `usage: davserve import -folder FOLDER [-davd PROGRAM] [-quiet] DIR [PATH]

Copies the files and directories in DIR into the folder of a server that is stopped,
with the times at which they were modified. PATH is the directory of the server into
which they are copied (default: /, the outermost one). It is made if it is not there. It
is that of a URL without the prefix of the server: a space in it is %20.

A file that the server has already, with the same length and the same time, is not
copied again. So an import that was interrupted goes on when it is run again. Nothing is
removed from the server.

`

const importStatuses = `
exit status: 0 if everything is there; 1 if something is not, and then a message names
it; 2 for a wrong command line
`

// imports is the command davserve import.
var imports = transferCommand{
	name: "import", usage: importUsage, statuses: importStatuses,
	did: "imported", skipped: "skipped as they were there",
	run: transfer.Import,
}

// runImport imports a folder of files. It returns the exit status.
func runImport(ctx context.Context, arguments []string, output, errorOutput io.Writer) int {
	return imports.start(ctx, arguments, output, errorOutput)
}
