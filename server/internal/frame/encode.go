package frame

import "encoding/binary"

// Append appends the encoding of a frame to b and returns the result.
//
// davd answers a frame that it cannot decode with Failed 400 and serves the others of the batch. So the caller makes
// sure that strings are UTF-8, that the names of attributes are in order, and that an element has at most RequestLevels
// levels.
func Append(b []byte, f Frame) []byte {
	return f.appendTo(b)
}

// The first byte of a frame.
const (
	frameRequest = iota
	frameStartBody
	frameAddToBody
	frameDropBody
	frameRead
	frameNextExpiry
	frameHeld
	frameBeginBackup
	frameEndBackup
	frameSetRights
	frameExplain
	frameListLocks
	frameRemoveLock
	frameSetModified
)

func (f Request) appendTo(b []byte) []byte {
	b = append(b, frameRequest)
	b = appendString(b, f.Method)
	b = appendString(b, f.Path)
	b = appendOptional(b, f.Principal)
	b = appendString(b, f.Token)
	b = appendFields(b, f.Fields)
	if f.Body == nil {
		return append(b, bodyNone)
	}
	return f.Body.appendBodyTo(b)
}

func (StartBody) appendTo(b []byte) []byte {
	return append(b, frameStartBody)
}

func (f AddToBody) appendTo(b []byte) []byte {
	b = append(b, frameAddToBody)
	b = appendNumber(b, f.Number)
	return appendBytes(b, f.Bytes)
}

func (f DropBody) appendTo(b []byte) []byte {
	b = append(b, frameDropBody)
	return appendNumber(b, f.Number)
}

func (f Read) appendTo(b []byte) []byte {
	b = append(b, frameRead)
	b = appendOptional(b, f.Principal)
	b = appendString(b, f.Path)
	b = appendNumber(b, f.Offset)
	b = appendNumber(b, f.Count)
	return appendOptional(b, f.ETag)
}

func (NextExpiry) appendTo(b []byte) []byte {
	return append(b, frameNextExpiry)
}

func (Held) appendTo(b []byte) []byte {
	return append(b, frameHeld)
}

func (BeginBackup) appendTo(b []byte) []byte {
	return append(b, frameBeginBackup)
}

func (EndBackup) appendTo(b []byte) []byte {
	return append(b, frameEndBackup)
}

func (f SetRights) appendTo(b []byte) []byte {
	b = append(b, frameSetRights)
	return appendString(b, f.Rules)
}

func (f Explain) appendTo(b []byte) []byte {
	b = append(b, frameExplain)
	b = appendOptional(b, f.Principal)
	return appendString(b, f.Path)
}

func (ListLocks) appendTo(b []byte) []byte {
	return append(b, frameListLocks)
}

func (f RemoveLock) appendTo(b []byte) []byte {
	b = append(b, frameRemoveLock)
	b = appendString(b, f.Path)
	return appendString(b, f.Token)
}

func (f SetModified) appendTo(b []byte) []byte {
	b = append(b, frameSetModified)
	b = appendString(b, f.Path)
	return appendNumber(b, f.Time)
}

// The first byte of the body of a request.
const (
	bodyNone = iota
	bodyBytes
	bodyStored
	bodyElement
	bodyMalformed
)

func (body Bytes) appendBodyTo(b []byte) []byte {
	b = append(b, bodyBytes)
	return appendBytes(b, body)
}

func (body Stored) appendBodyTo(b []byte) []byte {
	b = append(b, bodyStored)
	return appendNumber(b, uint64(body))
}

func (e *Element) appendBodyTo(b []byte) []byte {
	b = append(b, bodyElement)
	return appendElement(b, e)
}

func (Malformed) appendBodyTo(b []byte) []byte {
	return append(b, bodyMalformed)
}

// The first byte of a node of an element. nodeEnd follows the last node.
const (
	nodeEnd = iota
	nodeElement
	nodeText
)

func appendElement(b []byte, e *Element) []byte {
	b = appendString(b, e.Name)
	b = appendUnlessEmpty(b, e.Prefix)
	b = appendUnlessEmpty(b, e.Namespace)
	b = appendNumber(b, uint64(len(e.Attributes)))
	for _, a := range e.Attributes {
		b = appendString(b, a.Name)
		b = appendString(b, a.Value)
	}
	for _, n := range e.Nodes {
		if n.Element != nil {
			b = append(b, nodeElement)
			b = appendElement(b, n.Element)
		} else {
			b = append(b, nodeText)
			b = appendString(b, n.Text)
		}
	}
	return append(b, nodeEnd)
}

func appendFields(b []byte, fields []Field) []byte {
	b = appendNumber(b, uint64(len(fields)))
	for _, f := range fields {
		b = appendString(b, f.Name)
		b = appendString(b, f.Value)
	}
	return b
}

// The first byte of an optional value, and a flag.
const (
	no  = 0
	yes = 1
)

func appendOptional(b []byte, s *string) []byte {
	if s == nil {
		return append(b, no)
	}
	return appendString(append(b, yes), *s)
}

// appendUnlessEmpty appends an optional string that is absent if s is empty.
func appendUnlessEmpty(b []byte, s string) []byte {
	if s == "" {
		return append(b, no)
	}
	return appendString(append(b, yes), s)
}

func appendString(b []byte, s string) []byte {
	b = appendNumber(b, uint64(len(s)))
	return append(b, s...)
}

func appendBytes(b, s []byte) []byte {
	b = appendNumber(b, uint64(len(s)))
	return append(b, s...)
}

func appendNumber(b []byte, n uint64) []byte {
	return binary.BigEndian.AppendUint64(b, n)
}
