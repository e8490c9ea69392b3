package control

import (
	"bytes"
	"context"
	"encoding/json"
	"errors"
	"fmt"
	"io"
	"io/fs"
	"net"
	"net/http"
	"net/url"
	"syscall"
	"time"

	"davserve/internal/backup"
)

// host is what the URLs of requests begin with. It is not used.
const host = "http://davserve"

// longestMessage is how many bytes of a message of the server are shown.
const longestMessage = 4096

// askTimeout is the time in which a server must say why a backup failed.
const askTimeout = 5 * time.Second

// Fetch has the server that listens at a socket make a backup, and unpacks it into a folder, which may exist if it is
// empty. If Fetch fails, the folder is as before.
func Fetch(ctx context.Context, socket, folder string) (backup.Sizes, error) {
	if err := checkPath(socket); err != nil {
		return backup.Sizes{}, err
	}
	target, err := backup.Make(folder)
	if err != nil {
		return backup.Sizes{}, err
	}
	defer target.Discard()
	client := clientOf(socket)
	defer client.CloseIdleConnections()
	response, err := send(ctx, client, http.MethodPost, backupPath)
	if err != nil {
		return backup.Sizes{}, noAnswer(socket, err)
	}
	defer response.Body.Close()
	if response.StatusCode != http.StatusOK {
		text, _ := io.ReadAll(io.LimitReader(response.Body, longestMessage))
		return backup.Sizes{}, answer{response.StatusCode, text}.refusal("makes no backup")
	}
	if len(response.TransferEncoding) != 1 || response.TransferEncoding[0] != "chunked" {
		return backup.Sizes{}, errors.New("the response of the server has no end that shows that it is whole")
	}
	stream := &stream{source: response.Body}
	sizes, err := target.Unpack(stream)
	if err != nil && stream.err != nil && ctx.Err() == nil {
		err = fmt.Errorf("the server broke the backup off: %w", reasonFrom(client, stream.err))
	}
	return sizes, err
}

// clientOf returns a client that sends to a socket, whatever the host of a URL is.
func clientOf(socket string) *http.Client {
	dial := func(ctx context.Context, _, _ string) (net.Conn, error) {
		var dialer net.Dialer
		return dialer.DialContext(ctx, "unix", socket)
	}
	return &http.Client{Transport: &http.Transport{DialContext: dial, DisableCompression: true}}
}

// send sends a request without a body. The target is the path and the query of its URL.
func send(ctx context.Context, client *http.Client, method, target string) (*http.Response, error) {
	request, err := http.NewRequestWithContext(ctx, method, host+target, nil)
	if err != nil {
		return nil, err
	}
	return client.Do(request)
}

// An answer is a response whose body is read.
type answer struct {
	status int
	body   []byte
}

// refusal returns the error of a server that does not do what it was asked for.
func (a answer) refusal(what string) error {
	text := a.body
	if len(text) > longestMessage {
		text = text[:longestMessage]
	}
	return fmt.Errorf("the server %s: %s (status %d)", what, bytes.TrimSpace(text), a.status)
}

// ask sends a request to the server that listens at a socket, and reads the response.
func ask(ctx context.Context, socket, method, target string) (answer, error) {
	if err := checkPath(socket); err != nil {
		return answer{}, err
	}
	client := clientOf(socket)
	defer client.CloseIdleConnections()
	response, err := send(ctx, client, method, target)
	if err != nil {
		return answer{}, noAnswer(socket, err)
	}
	defer response.Body.Close()
	body, err := io.ReadAll(response.Body)
	if err != nil {
		return answer{}, fmt.Errorf("the server at %s broke its answer off: %w", socket, err)
	}
	return answer{response.StatusCode, body}, nil
}

// reasonFrom asks the server why a backup failed. If it does not say, the reason is what was seen.
func reasonFrom(client *http.Client, seen error) error {
	ctx, cancel := context.WithTimeout(context.Background(), askTimeout)
	defer cancel()
	response, err := send(ctx, client, http.MethodGet, backupPath)
	if err != nil {
		return fmt.Errorf("%w (its log may say why)", seen)
	}
	defer response.Body.Close()
	var state State
	if err := json.NewDecoder(io.LimitReader(response.Body, longestMessage)).Decode(&state); err != nil || state.Error == "" {
		return seen
	}
	return errors.New(state.Error)
}

// A stream remembers why it could not be read to its end.
type stream struct {
	source io.Reader
	err    error
}

// Read implements io.Reader.
func (s *stream) Read(p []byte) (int, error) {
	n, err := s.source.Read(p)
	if err != nil && err != io.EOF {
		s.err = err
	}
	return n, err
}

// noAnswer returns why a request at the socket got no answer.
func noAnswer(socket string, err error) error {
	var failed *url.Error
	if errors.As(err, &failed) {
		err = failed.Err // Without the URL, which nobody typed.
	}
	if errors.Is(err, fs.ErrNotExist) || errors.Is(err, syscall.ECONNREFUSED) {
		return fmt.Errorf("no server answers at %s: %w (if it runs, start it again; if it is stopped, davd --check "+
			"checks the folder, and a copy of the whole folder is a backup)", socket, err)
	}
	return fmt.Errorf("no server answers at %s: %w", socket, err)
}
