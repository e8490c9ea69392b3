package frame

// A builder has what the elements of one reply are built from. It allocates elements and nodes in blocks, because a
// response may have many thousands of them, and they are used and dropped together.
type builder struct {
	elements []Element // the unused rest of a block
	nodes    []Node    // the unused rest of a block
	pending  []Node    // the nodes of the elements that are not closed yet, those of the innermost last
}

const (
	elementBlock = 64
	nodeBlock    = 256

	// How many bytes an element has at least as a node: its kind, its name, no prefix, no namespace, no attributes,
	// and the end of its nodes.
	elementBytes = 1 + 8 + 1 + 1 + 8 + 1

	// How many bytes a string has at least as a node: its kind and its length.
	textBytes = 1 + 8
)

// root reads the root of the body of a response.
func (r *reader) root() *Element {
	if !r.has() {
		return nil
	}
	return r.element(ReplyLevels)
}

// element reads an element of at most so many levels. It calls itself once for each level, so the limit bounds the
// stack, too.
func (r *reader) element(levels int) *Element {
	e := r.tree.element(r.left())
	r.tag(e)
	first := len(r.tree.pending)
	for {
		at := r.at
		switch r.kind(nodeText, "a node") {
		case nodeElement:
			if levels == 1 {
				r.fail(at, "at most %d levels", ReplyLevels)
				return nil
			}
			child := r.element(levels - 1)
			r.tree.pending = append(r.tree.pending, Node{Element: child})
		case nodeText:
			text := r.string()
			r.tree.pending = append(r.tree.pending, Node{Text: text})
		default:
			e.Nodes = r.tree.close(first, r.left())
			return e
		}
	}
}

// tag reads what an element has before its nodes.
func (r *reader) tag(e *Element) {
	e.Name = r.string()
	e.Prefix = r.emptyIfAbsent()
	e.Namespace = r.emptyIfAbsent()
	e.Attributes = r.attributes()
}

func (r *reader) attributes() []Attribute {
	count := r.count(pairBytes)
	if count == 0 {
		return nil
	}
	attributes := make([]Attribute, count)
	for i := range attributes {
		at := r.at
		attributes[i] = Attribute{Name: r.string(), Value: r.string()}
		if i > 0 && attributes[i-1].Name >= attributes[i].Name {
			r.fail(at, "names of attributes in ascending order")
		}
		if r.err != nil {
			return nil
		}
	}
	return attributes
}

// element returns a new element. At most so many bytes are left of the reply.
func (t *builder) element(left int) *Element {
	if len(t.elements) == 0 {
		t.elements = make([]Element, least(elementBlock, 1+left/elementBytes))
	}
	e := &t.elements[0]
	t.elements = t.elements[1:]
	return e
}

// close removes the pending nodes from the first on and returns a copy of them. At most so many bytes are left of the
// reply.
func (t *builder) close(first, left int) []Node {
	closed := t.pending[first:]
	t.pending = t.pending[:first]
	n := len(closed)
	if n == 0 {
		return nil
	}
	if n > nodeBlock/4 {
		return append([]Node(nil), closed...)
	}
	if n > len(t.nodes) {
		t.nodes = make([]Node, least(nodeBlock, n+first+left/textBytes))
	}
	nodes := t.nodes[:n:n]
	t.nodes = t.nodes[n:]
	copy(nodes, closed)
	return nodes
}

func least(a, b int) int {
	if a < b {
		return a
	}
	return b
}
