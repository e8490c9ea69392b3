package davd

import (
	"bufio"
	"bytes"
	"crypto/rand"
	"encoding/binary"
	"fmt"
	"io"
	"io/fs"
	"log"
	"math/big"
	"os/exec"
	"strconv"
	"syscall"
	"time"

	"davserve/internal/frame"
)

const (
	underWay   = 4        // how many batches are sent before the replies to the first have arrived
	bufferSize = 64 << 10 // of the input and of the output of davd, in bytes
	replyLimit = 4 << 30  // bytes of the longest reply that is read

	statusNotNext = 409 // of a batch that is not the next one
)

// A process is a running davd.
type process struct {
	command *exec.Cmd
	said    *lineWriter // its standard error
	input   io.WriteCloser
	writer  *bufio.Writer
	reader  *bufio.Reader
	began   time.Time              // when it was started
	loaded  time.Time              // when it had loaded its folder
	isFull  bool                   // it has more memory than it may, so that nothing is added to what it holds
	removed bool                   // it was sent what removes something
	changed bool                   // it was sent what may change its folder, and then nothing that lets it note how far it is
	resting *time.Timer            // sends that when nothing was sent for a while; nil: nothing was ever to be noted
	renewed bool                   // it gets no more batches and ends, so that the next one needs less memory
	files   map[string]fs.FileInfo // the watched files of its folder when it was started, by their names
	kept    uint64                 // the number of the last batch that it had kept in its folder when it was started
	number  uint64                 // of the last batch
	made    uint64                 // the number of the last batch of which an answer says that it has changed the folder
	pending int                    // how many batches were sent whose replies were not all read
	sent    chan *batch            // the batches whose replies were not begun to be read
	reading *batch                 // the batch whose replies are read, or could not be read whole
	free    time.Time              // when the replies to the last batch were read, so that davd could begin the next one
	gone    chan struct{}          // closed when it has ended
	lost    error                  // why a call that it has not done failed; set before gone is closed
	budget
	guards
}

// guards say what may be sent to a davd with regard to its access rules and its memory.
type guards struct {
	isSetting bool // it was sent access rules, and has not answered everything since
	isGuarded bool // it has a batch of an operator, or the reserve, and nothing else is sent until that is answered
	isBroken  bool // it does not have its access rules or its limit after such a batch, and gets nothing more
}

// start starts davd. In a process group of its own it does not get the interrupts of a terminal.
func start(config Config) (*process, error) {
	program, err := exec.LookPath(config.Program)
	if err != nil {
		return nil, fmt.Errorf("davd cannot be started: %w", err)
	}
	config, err = config.drawn()
	if err != nil {
		return nil, fmt.Errorf("davd cannot be started: %w", err)
	}
	command := config.command(program)
	command.SysProcAttr = &syscall.SysProcAttr{Setpgid: true}
	said := &lineWriter{log: config.Log}
	command.Stderr = said
	input, err := command.StdinPipe()
	if err != nil {
		return nil, fmt.Errorf("davd cannot be started: %w", err)
	}
	output, err := command.StdoutPipe()
	if err != nil {
		return nil, fmt.Errorf("davd cannot be started: %w", err)
	}
	if err := command.Start(); err != nil {
		return nil, fmt.Errorf("davd cannot be started: %w", err)
	}
	p := &process{
		command: command,
		said:    said,
		began:   time.Now(),
		input:   input,
		writer:  bufio.NewWriterSize(input, bufferSize),
		reader:  bufio.NewReaderSize(output, bufferSize),
		sent:    make(chan *batch, underWay),
		gone:    make(chan struct{}),
	}
	if config.Folder == "" {
		p.hasBodies = true
		p.allowed = config.allowance() // Over a folder it applies once that is loaded.
	}
	return p, nil
}

// drawn returns how davd is run with what it does not draw itself. Over a folder that is the key of the digests, if the
// folder is new, and the seed of this start. In memory, where the next davd begins anew, it is the part of entity tags.
func (c Config) drawn() (Config, error) {
	if c.Folder == "" {
		return c.tagged()
	}
	var drawn [16]byte
	if _, err := rand.Read(drawn[:]); err != nil {
		return c, err
	}
	key := binary.BigEndian.Uint64(drawn[:8]) >> 1 // below 2^63
	seed := binary.BigEndian.Uint64(drawn[8:])
	return c.with("-key", strconv.FormatUint(key, 10), "-seed", strconv.FormatUint(seed, 10)), nil
}

// tagged returns how davd is run with a new part of entity tags, so that it gives no tag that another one has given.
func (c Config) tagged() (Config, error) {
	var part [16]byte
	if _, err := rand.Read(part[:]); err != nil {
		return c, err
	}
	return c.with("-tags", new(big.Int).SetBytes(part[:]).String()), nil
}

// kill ends davd at once. Whoever reads its output finds the end.
func (p *process) kill() {
	p.command.Process.Kill()
}

// wait waits until davd has ended, and says how. Nobody may read its output any more.
func (p *process) wait() error {
	p.input.Close()
	end := p.command.Wait()
	p.said.end()
	return end
}

// write writes a batch.
func (p *process) write(b *batch) error {
	count := b.frames()
	length := 8 + 8*uint64(count)
	for _, c := range b.calls {
		length += uint64(c.size())
	}
	var head [40]byte
	header := frame.BatchHeader{Number: b.number, Time: b.now, Length: length}
	p.writer.Write(binary.BigEndian.AppendUint64(frame.AppendBatchHeader(head[:0], header), uint64(count)))
	for _, c := range b.calls {
		for _, f := range c.frames {
			p.writer.Write(binary.BigEndian.AppendUint64(head[:0], uint64(len(f))))
			p.writer.Write(f)
		}
	}
	return p.writer.Flush() // It returns the first error of all these writes.
}

// read reads the replies to a batch and finishes its calls. After an error, the calls from b.answered on are not
// finished.
func (p *process) read(b *batch) error {
	header, err := frame.ReadReplyHeader(p.reader)
	if err != nil {
		return err
	}
	came := time.Now()
	switch {
	case header.Status == statusNotNext:
		return fmt.Errorf("batch %d is not the next one: the status is 409, and the number %d", b.number, header.Number)
	case header.Number != b.number:
		return fmt.Errorf("replies to batch %d, where those to batch %d were expected", header.Number, b.number)
	case header.Status == 507 && header.Count == 0:
		for _, c := range b.calls {
			c.finish(nil, &StatusError{Status: 507})
		}
		return nil
	case header.Status != 200:
		return fmt.Errorf("batch %d has the status %d", b.number, header.Status)
	case header.Count != uint64(b.frames()):
		return fmt.Errorf("batch %d of %d frames has %d replies", b.number, b.frames(), header.Count)
	}
	b.written.Wait() // Whoever gets a reply may use the memory of the frame again.
	b.took = came.Sub(latest(b.wrote, p.free))
	for _, c := range b.calls {
		replies, err := p.readReplies(len(c.frames), c.fitting.Fits)
		if err != nil && err != frame.ErrDropped {
			return err
		}
		b.answered++
		if c.hasMade(replies) {
			p.made = b.number
		}
		if c.replied != nil {
			c.replied(replies[0])
		}
		c.finish(replies, err)
	}
	p.free = time.Now()
	return nil
}

// readReplies reads so many replies. The error is frame.ErrDropped if all are read, and one of them did not fit.
func (p *process) readReplies(count int, fits func(int) bool) (replies [][]byte, dropped error) {
	replies = make([][]byte, count)
	for i := range replies {
		reply, err := frame.ReadReply(p.reader, replyLimit, fits)
		switch {
		case err == frame.ErrDropped:
			dropped = err
		case err != nil:
			return nil, err
		}
		replies[i] = reply
	}
	return replies, dropped
}

// latest returns the later one of two times.
func latest(one, other time.Time) time.Time {
	if one.After(other) {
		return one
	}
	return other
}

// longestLine is how many bytes of a line are logged together.
const longestLine = 4096

// A lineWriter logs each line that davd writes to its standard error. It keeps at most longestLine bytes.
type lineWriter struct {
	log  *log.Logger
	rest []byte
}

// Write implements io.Writer.
func (w *lineWriter) Write(p []byte) (int, error) {
	w.rest = append(w.rest, p...)
	for {
		line, rest, found := bytes.Cut(w.rest, []byte("\n"))
		if !found && len(w.rest) < longestLine {
			return len(p), nil
		}
		w.log.Printf("davd says: %q", line)
		w.rest = rest
	}
}

// end logs a last line that has no line end. Nothing is written any more.
func (w *lineWriter) end() {
	if len(w.rest) > 0 {
		w.log.Printf("davd says: %q", w.rest)
	}
	w.rest = nil
}
