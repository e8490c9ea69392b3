package auth

import (
	"container/list"
	"crypto/hmac"
	"crypto/rand"
	"crypto/sha256"
	"encoding/binary"
	"fmt"
	"sync"
	"time"
)

const (
	cacheTime  = 5 * time.Minute
	cacheItems = 4096
)

// A key stands for a name, a password and a hash. Nobody can compute it, or find the password for it, without the
// secret of the process.
type key [sha256.Size]byte

// A secret is random and makes keys.
type secret [sha256.Size]byte

func newSecret() (*secret, error) {
	var s secret
	if _, err := rand.Read(s[:]); err != nil {
		return nil, fmt.Errorf("random number: %w", err)
	}
	return &s, nil
}

// key returns the key of some strings. Each is preceded by its length, so no two lists have the same key.
func (s *secret) key(parts ...string) (k key) {
	mac := hmac.New(sha256.New, s[:])
	for _, part := range parts {
		var length [8]byte
		binary.BigEndian.PutUint64(length[:], uint64(len(part)))
		mac.Write(length[:])
		mac.Write([]byte(part))
	}
	mac.Sum(k[:0])
	return k
}

// A cache has the keys whose password is right. A key is in it for cacheTime after it was added, and it holds
// cacheItems at most: a further one removes the oldest. The hash is a part of the key, so a changed file invalidates
// it at once.
type cache struct {
	now func() time.Time

	mu    sync.Mutex
	items map[key]*list.Element
	order list.List // of item, the oldest first
}

type item struct {
	key key
	end time.Time
}

func newCache(now func() time.Time) *cache {
	return &cache{now: now, items: make(map[key]*list.Element)}
}

// has reports whether the cache has a key.
func (c *cache) has(k key) bool {
	c.mu.Lock()
	defer c.mu.Unlock()
	c.expire()
	_, ok := c.items[k]
	return ok
}

// add adds a key.
func (c *cache) add(k key) {
	c.mu.Lock()
	defer c.mu.Unlock()
	c.expire()
	if e, ok := c.items[k]; ok {
		c.remove(e)
	}
	if c.order.Len() >= cacheItems {
		c.remove(c.order.Front())
	}
	c.items[k] = c.order.PushBack(item{key: k, end: c.now().Add(cacheTime)})
}

// expire removes the keys whose time is over.
func (c *cache) expire() {
	now := c.now()
	for e := c.order.Front(); e != nil && !now.Before(e.Value.(item).end); e = c.order.Front() {
		c.remove(e)
	}
}

func (c *cache) remove(e *list.Element) {
	delete(c.items, e.Value.(item).key)
	c.order.Remove(e)
}
