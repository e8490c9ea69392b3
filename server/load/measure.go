package main

import (
	"context"
	"fmt"
	"io"
	"syscall"
)

// measureAll measures each kind with each number of connections on each server.
func measureAll(ctx context.Context, o options, progress io.Writer) ([]*row, error) {
	var rows []*row
	for _, k := range o.kinds {
		connections := o.connections
		if k == mixed {
			connections = []int{1}
		}
		for _, n := range connections {
			some, err := measureRounds(ctx, o, k, n, progress)
			if err != nil {
				return nil, err
			}
			rows = append(rows, some...)
		}
	}
	return rows, nil
}

// measureRounds measures one kind with one number of connections, in several rounds over all servers.
func measureRounds(ctx context.Context, o options, k kind, connections int, progress io.Writer) ([]*row, error) {
	rows := make([]*row, len(o.servers))
	for i, s := range o.servers {
		rows[i] = &row{kind: k, connections: connections, server: s.name}
	}
	for round := 0; round < o.rounds; round++ {
		for _, i := range orderOf(round, len(rows)) {
			syscall.Sync() // No server waits until the disk has what another wrote.
			c := newCrew(o.servers[i], k, connections, o.writers)
			c.work(ctx, o.duration)
			if err := ctx.Err(); err != nil {
				return nil, err
			}
			rows[i].addRound(c)
			fmt.Fprintf(progress, "%s %d %s: %.0f/s\n", k, connections, rows[i].server, rows[i].rates[round])
		}
	}
	return rows, nil
}

// orderOf returns the order of the servers in a round: each second round goes backward.
func orderOf(round, servers int) []int {
	order := make([]int, servers)
	for i := range order {
		order[i] = i
		if round%2 == 1 {
			order[i] = servers - 1 - i
		}
	}
	return order
}
