package accesslog

import (
	"io"
	"net/http"
)

// A response passes on a response, and notes its status and size.
type response struct {
	http.ResponseWriter
	status int // 0: none yet
	bytes  int64
}

func (r *response) WriteHeader(status int) {
	if r.status == 0 && (status >= 200 || status == http.StatusSwitchingProtocols) {
		r.status = status
	}
	r.ResponseWriter.WriteHeader(status)
}

func (r *response) Write(b []byte) (int, error) {
	r.begin()
	n, err := r.ResponseWriter.Write(b)
	r.bytes += int64(n)
	return n, err
}

// ReadFrom writes the bytes of src. The server may have a faster way than Write for them.
func (r *response) ReadFrom(src io.Reader) (int64, error) {
	r.begin()
	n, err := io.Copy(r.ResponseWriter, src)
	r.bytes += n
	return n, err
}

// Flush sends what is buffered, if the server can.
func (r *response) Flush() {
	if f, ok := r.ResponseWriter.(http.Flusher); ok {
		r.begin()
		f.Flush()
	}
}

// begin notes the status that net/http sends with the first byte.
func (r *response) begin() {
	if r.status == 0 {
		r.status = http.StatusOK
	}
}

// fail sends 500, without header fields that describe another content.
func (r *response) fail() {
	for _, name := range []string{"Cache-Control", "Content-Encoding", "Content-Length", "Content-Range", "Etag",
		"Last-Modified", "Transfer-Encoding"} {
		r.Header().Del(name)
	}
	http.Error(r, "internal server error", http.StatusInternalServerError)
}
