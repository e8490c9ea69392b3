// Mount serves WebDAV below /dav/ to the users that it knows, beside a page. DAVD names the program davd.
package main

import (
	"context"
	"crypto/subtle"
	"fmt"
	"log"
	"net"
	"net/http"
	"os"
	"os/signal"
	"time"

	"davserve"
)

var passwords = map[string]string{"ann": "secret", "ben": "other"}

// user returns the user of a request, and whether the password is right.
func user(r *http.Request) (string, bool) {
	name, given, _ := r.BasicAuth()
	password, known := passwords[name]
	return name, known && subtle.ConstantTimeCompare([]byte(given), []byte(password)) == 1
}

// serve serves until ctx is done and the requests under way are answered.
func serve(ctx context.Context, listener net.Listener, program string) error {
	dav, err := davserve.New(ctx, davserve.Options{Davd: program, Prefix: "/dav", Principal: user})
	if err != nil {
		return err
	}
	defer dav.Close(context.Background())
	mux := http.NewServeMux()
	mux.HandleFunc("/", func(w http.ResponseWriter, _ *http.Request) { fmt.Fprintln(w, "Files are at /dav/.") })
	mux.HandleFunc("/dav/", func(w http.ResponseWriter, r *http.Request) {
		if _, ok := user(r); !ok {
			w.Header().Set("WWW-Authenticate", `Basic realm="files"`)
			http.Error(w, "401 Unauthorized", http.StatusUnauthorized)
			return
		}
		dav.ServeHTTP(w, r)
	})
	server := &http.Server{Handler: mux, ConnContext: davserve.ConnContext, ReadHeaderTimeout: 20 * time.Second}
	go server.Serve(listener) // Until Shutdown.
	<-ctx.Done()
	return server.Shutdown(context.Background())
}

func main() {
	ctx, stop := signal.NotifyContext(context.Background(), os.Interrupt)
	defer stop()
	listener, err := net.Listen("tcp", "127.0.0.1:8080")
	if err == nil {
		err = serve(ctx, listener, os.Getenv("DAVD"))
	}
	if err != nil {
		log.Fatal(err)
	}
}
