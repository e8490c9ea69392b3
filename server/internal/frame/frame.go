// Package frame encodes the frames that davd reads and decodes the replies that it writes.
//
// docs/FRAMES.md has the grammar and says what each frame does. Append and Decode are for single frames and replies.
// The other functions are for the batches that they travel in.
//
// In the grammar a string is UTF-8, and a byte string is any bytes. Both are Go strings here. The comment of a type
// says which of its strings are byte strings. Every other is UTF-8.
package frame

// RequestLevels is how many levels the element in a request may have.
const RequestLevels = 256

// ReplyLevels is how many levels the element in a response may have.
const ReplyLevels = 272

// An Element is an element of an XML tree.
type Element struct {
	Name      string // without prefix
	Prefix    string // empty: no prefix
	Namespace string // empty: no namespace
	// Attributes has the attributes as they are written, with prefixes, and the declarations of namespaces among them.
	// Each name is less than the next, byte by byte. Append relies on the caller for that, and Decode checks it.
	Attributes []Attribute
	Nodes      []Node
}

// An Attribute is an attribute of an element, such as xmlns:D="DAV:".
type Attribute struct {
	Name, Value string
}

// A Node is what an element contains: another element or, if Element is nil, a string.
type Node struct {
	Element *Element
	Text    string
}

// A Field is a header field. Its name and its value are byte strings. In a Response the name is in lower case.
type Field struct {
	Name, Value string
}

// A Frame asks davd for something. It is one of Request, StartBody, AddToBody, DropBody, Read, NextExpiry, Held,
// BeginBackup, EndBackup, SetRights, Explain, ListLocks, RemoveLock and SetModified.
type Frame interface {
	appendTo(b []byte) []byte
}

// A Request is an HTTP request for the engine. The reply is Response.
type Request struct {
	Method    string  // a byte string
	Path      string  // as in the request line, percent-encoded
	Principal *string // nil: nobody
	Token     string  // of the lock that the request may create; each request needs one, whatever its method
	Fields    []Field
	Body      Body
}

// A Body is the body of a Request. It is nil for none, or one of Bytes, Stored, *Element and Malformed. A nil *Element
// is not a body.
type Body interface {
	appendBodyTo(b []byte) []byte
}

// Bytes is the body of a request in one piece.
type Bytes []byte

// Stored is the number of a body that davd holds.
type Stored uint64

// Malformed is an XML body that could not be parsed.
type Malformed struct{}

// StartBody begins a body. The reply is BodyStarted.
type StartBody struct{}

// AddToBody adds bytes to a body. The reply is Done.
type AddToBody struct {
	Number uint64
	Bytes  []byte
}

// DropBody removes a body. The reply is Done.
type DropBody struct {
	Number uint64
}

// A Read is a read of Count bytes of a file from Offset on. The reply is Part or Collection.
type Read struct {
	Principal *string // nil: nobody
	Path      string
	Offset    uint64
	Count     uint64
	ETag      *string // of an earlier part, without quotes; nil: any
}

// NextExpiry asks when the next lock expires. The reply is Expiry.
type NextExpiry struct{}

// Held asks how much is held. The reply is Holdings.
type Held struct{}

// BeginBackup begins a backup: until it ends, davd overwrites nothing that files contain. The reply is Done.
type BeginBackup struct{}

// EndBackup ends the backup, if there is one. The reply is Done.
type EndBackup struct{}

// SetRights has davd serve by the access rules of a text from now on. The reply is Done, or Refused if the text has no
// rules.
type SetRights struct {
	Rules string // in TOML
}

// Explain asks what the access rules allow a principal at a path. The reply is Explained.
type Explain struct {
	Principal *string // nil: nobody
	Path      string  // as in the request line, percent-encoded
}

// ListLocks asks which locks there are. The reply is Locks.
type ListLocks struct{}

// RemoveLock removes a lock, whatever its principal is and whatever the access rules say. The reply is Done.
type RemoveLock struct {
	Path  string // of the resource of the lock, or of one below it, as in the request line, percent-encoded
	Token string
}

// SetModified sets when a resource was last modified. It changes neither its entity tag nor its bytes. The reply is Done.
type SetModified struct {
	Path string // as in the request line, percent-encoded
	Time uint64 // seconds since 1970
}

// A Reply answers a frame. It is one of Response, BodyStarted, Done, Part, Collection, Expiry, Holdings, Failed, Refused,
// Explained and Locks.
type Reply interface {
	isReply()
}

// A Response answers a Request.
type Response struct {
	Status int  // 100 to 999
	Close  bool // the connection must be closed
	Fields []Field
	Root   *Element // of the XML body; nil: no body
}

// BodyStarted has the number of a new body.
type BodyStarted struct {
	Number uint64
}

// Done says that a frame did what it asked for.
type Done struct{}

// A Part is a part of a file.
type Part struct {
	Length    uint64  // of the whole file
	Modified  *uint64 // seconds since 1970; nil: not known
	ETag      *string // without quotes; nil: none
	MediaType string
	Bytes     []byte
}

// Collection says that the path of a Read is that of a collection.
type Collection struct{}

// An Expiry says when the next lock expires.
type Expiry struct {
	Time *uint64 // seconds since 1970; nil: no lock expires
}

// Holdings says how much is held.
type Holdings struct {
	Locks uint64
	Quota *Quota // nil: the store has none
}

// A Quota says how many bytes files may use.
type Quota struct {
	Used  uint64
	Total *uint64 // nil: no limit
}

// Failed says that a frame failed, with an HTTP status.
type Failed struct {
	Status int // 100 to 999
}

// Refused says that the text of SetRights has no rules. Nothing has changed.
type Refused struct {
	Reason string // one or more lines, which name the line of the text or the rule that is wrong, if it is one
}

// Explained says what the access rules allow a principal at a path.
type Explained struct {
	Rule  *uint64 // the number of the rule that decides, from 1; nil: none does
	List  bool
	Read  bool
	Write bool
}

// Locks has all locks. The oldest one is the first.
type Locks []Lock

// A Lock is a write lock of a resource.
type Lock struct {
	Token     string
	Path      string  // of the resource, as in the request line, percent-encoded
	Principal *string // nil: nobody
	Deep      bool    // the lock also covers everything below the resource
	Shared    bool
	Expires   *uint64 // seconds since 1970; nil: never
}
