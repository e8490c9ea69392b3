package davserve_test

import (
	"context"
	"fmt"
	"io"
	"log"
	"net/http"
	"net/http/httptest"
	"os"
	"strings"

	"davserve"
)

// A server for the tests of a client. It is in memory: each New begins with nothing. DAVD names the program davd.
func Example_testServer() {
	ctx := context.Background()
	handler, err := davserve.New(ctx, davserve.Options{Davd: os.Getenv("DAVD")})
	if err != nil {
		log.Fatal(err)
	}
	defer handler.Close(ctx)
	server := httptest.NewServer(handler)
	defer server.Close()

	do := func(method, path, body string) {
		r, _ := http.NewRequest(method, server.URL+path, strings.NewReader(body))
		r.Header.Set("Depth", "0")
		response, err := server.Client().Do(r)
		if err != nil {
			log.Fatal(err)
		}
		defer response.Body.Close()
		text, _ := io.ReadAll(response.Body)
		fmt.Printf("%s %s\n%s", method, response.Status, text)
	}
	do("PUT", "/a.txt", "hello")
	do("PROPFIND", "/a.txt", `<propfind xmlns="DAV:"><prop><getcontentlength/></prop></propfind>`)
	// Output:
	// PUT 201 Created
	// PROPFIND 207 Multi-Status
	// <?xml version="1.0" encoding="utf-8"?>
	// <D:multistatus xmlns:D="DAV:"><D:response><D:href>/a.txt</D:href><D:propstat><D:prop><D:getcontentlength>5</D:getcontentlength></D:prop><D:status>HTTP/1.1 200 OK</D:status></D:propstat></D:response></D:multistatus>
}
