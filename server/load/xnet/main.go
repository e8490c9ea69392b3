//go:build ignore

// Xnet serves WebDAV by golang.org/x/net/webdav, to compare with: ADDRESS, and a folder if the files are on disk.
//
// The module davserve does not need x/net, so this is built on its own, from Debian's golang-golang-x-net-dev:
//
//	GO111MODULE=off GOPATH=/usr/share/gocode go build -o xnet server/load/xnet/main.go
package main

import (
	"fmt"
	"net/http"
	"os"

	"golang.org/x/net/webdav"
)

func main() {
	if len(os.Args) != 2 && len(os.Args) != 3 {
		fmt.Fprintln(os.Stderr, "usage: xnet ADDRESS [FOLDER]")
		os.Exit(2)
	}
	h := &webdav.Handler{FileSystem: webdav.NewMemFS(), LockSystem: webdav.NewMemLS()}
	if len(os.Args) == 3 {
		h.FileSystem = webdav.Dir(os.Args[2])
	}
	fmt.Fprintln(os.Stderr, http.ListenAndServe(os.Args[1], h))
	os.Exit(1)
}
