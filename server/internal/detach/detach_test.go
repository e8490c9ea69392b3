package detach

import (
	"context"
	"net/http"
	"net/http/httptest"
	"testing"
)

type key struct{}

func TestChanges(t *testing.T) {
	for method, outlives := range map[string]bool{
		"PUT": true, "PATCH": true, "DELETE": true, "MKCOL": true, "COPY": true, "MOVE": true, "PROPPATCH": true,
		"UNLOCK": true, "LOCK": false, "GET": false, "HEAD": false, "PROPFIND": false, "OPTIONS": false, "put": false,
	} {
		ctx, cancel := context.WithCancel(context.WithValue(context.Background(), key{}, "value"))
		var got context.Context
		next := http.HandlerFunc(func(_ http.ResponseWriter, r *http.Request) { got = r.Context() })
		request := httptest.NewRequest(method, "/", nil).WithContext(ctx)
		Changes(Changes(next)).ServeHTTP(httptest.NewRecorder(), request)
		cancel()
		if outlived := got.Err() == nil; outlived != outlives {
			t.Errorf("%s: the context outlives its client: %t, want %t", method, outlived, outlives)
		}
		if value := got.Value(key{}); value != "value" {
			t.Errorf("%s: the value of the context is %v", method, value)
		}
	}
}
