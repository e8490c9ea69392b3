package davxml

import (
	"encoding/xml"
	"errors"
	"fmt"
	"io"
	"reflect"
	"strings"

	"davserve/internal/frame"
)

// A tree is what a document means: an element with its expanded name, its attributes without declarations, and its
// nodes, which are strings and trees.
type tree struct {
	name       xml.Name
	attributes map[xml.Name]string
	nodes      []any
}

func (t *tree) addText(text string) {
	if text == "" {
		return
	}
	if last := len(t.nodes) - 1; last >= 0 {
		if before, ok := t.nodes[last].(string); ok {
			t.nodes[last] = before + text
			return
		}
	}
	t.nodes = append(t.nodes, text)
}

// elements returns the elements among the nodes.
func (t *tree) elements() []*tree {
	var list []*tree
	for _, node := range t.nodes {
		if inner, ok := node.(*tree); ok {
			list = append(list, inner)
		}
	}
	return list
}

// find returns the first element with this local name, the tree itself included.
func (t *tree) find(local string) *tree {
	if t.name.Local == local {
		return t
	}
	for _, inner := range t.elements() {
		if found := inner.find(local); found != nil {
			return found
		}
	}
	return nil
}

func (t *tree) String() string {
	s := fmt.Sprintf("{%s}%s%v[", t.name.Space, t.name.Local, t.attributes)
	for _, node := range t.nodes {
		if text, ok := node.(string); ok {
			s += fmt.Sprintf("%q", text)
		} else {
			s += node.(*tree).String()
		}
	}
	return s + "]"
}

// readTree reads a document with encoding/xml, which resolves namespaces on its own.
func readTree(document string) (*tree, error) {
	decoder := xml.NewDecoder(strings.NewReader(document))
	around := []*tree{{}}
	for {
		token, err := decoder.Token()
		if err == io.EOF {
			break
		}
		if err != nil {
			return nil, err
		}
		inner := around[len(around)-1]
		switch token := token.(type) {
		case xml.StartElement:
			child := &tree{name: token.Name, attributes: map[xml.Name]string{}}
			for _, a := range token.Attr {
				if a.Name.Space != "xmlns" && a.Name != (xml.Name{Local: "xmlns"}) {
					child.attributes[a.Name] = a.Value
				}
			}
			inner.nodes = append(inner.nodes, child)
			around = append(around, child)
		case xml.EndElement:
			around = around[:len(around)-1]
		case xml.CharData:
			if len(around) > 1 {
				inner.addText(string(token))
			}
		}
	}
	if len(around) != 1 || len(around[0].nodes) != 1 {
		return nil, errors.New("not one root element")
	}
	return around[0].nodes[0].(*tree), nil
}

// treeOf returns what an element of Parse means. It resolves the prefix of an attribute only by the declarations of the
// same element, because the element may be stored without those around it.
func treeOf(e *frame.Element) (*tree, error) {
	declared := map[string]string{"xml": "http://www.w3.org/XML/1998/namespace"}
	for i, a := range e.Attributes {
		if i > 0 && e.Attributes[i-1].Name >= a.Name {
			return nil, fmt.Errorf("the attributes of %s are not in order", e.Name)
		}
		if strings.HasPrefix(a.Name, "xmlns:") {
			declared[a.Name[len("xmlns:"):]] = a.Value
		}
	}
	t := &tree{name: xml.Name{Space: e.Namespace, Local: e.Name}, attributes: map[xml.Name]string{}}
	for _, a := range e.Attributes {
		name := xml.Name{Local: a.Name}
		if i := strings.IndexByte(a.Name, ':'); i >= 0 {
			prefix := a.Name[:i]
			if prefix == "xmlns" {
				continue
			}
			namespace, ok := declared[prefix]
			if !ok {
				return nil, fmt.Errorf("the prefix of %s is not declared on %s", a.Name, e.Name)
			}
			name = xml.Name{Space: namespace, Local: a.Name[i+1:]}
		}
		if a.Name != "xmlns" {
			t.attributes[name] = a.Value
		}
	}
	for _, node := range e.Nodes {
		if node.Element == nil {
			t.addText(node.Text)
			continue
		}
		child, err := treeOf(node.Element)
		if err != nil {
			return nil, err
		}
		t.nodes = append(t.nodes, child)
	}
	return t, nil
}

func sameTree(a, b *tree) bool {
	return reflect.DeepEqual(a, b)
}

// child returns the first element in e with this local name, e itself included.
func child(e *frame.Element, name string) *frame.Element {
	if e.Name == name {
		return e
	}
	for _, node := range e.Nodes {
		if node.Element != nil {
			if found := child(node.Element, name); found != nil {
				return found
			}
		}
	}
	return nil
}
