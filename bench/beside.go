// The workloads of bench/ in Go, a goroutine for each process and a channel for each channel, for comparison:
//
//	beside WORKLOAD SIZE ROOM      pipeline, sample, pipelines or arithmetic; ROOM is how many values a channel holds (0: a send waits)
package main

import (
	"bufio"
	"os"
	"strconv"
)

var room int

func channel() chan int64 { return make(chan int64, room) }

func count(w chan<- int64, n int64) {
	for i := int64(0); i < n; i++ {
		w <- i
	}
	close(w)
}

func copyAll(u <-chan int64, w chan<- int64) {
	for v := range u {
		w <- v
	}
	close(w)
}

func f(u, v <-chan int64, w chan<- int64, n int64, put func(int64)) {
	b := true
	for i := int64(0); i < n; i++ {
		var x int64
		if b {
			x = <-u
		} else {
			x = <-v
		}
		put(x)
		w <- x
		b = !b
	}
}

func g(u <-chan int64, v, w chan<- int64) {
	for b := true; ; b = !b {
		x := <-u
		if b {
			v <- x
		} else {
			w <- x
		}
	}
}

func h(u <-chan int64, v chan<- int64, initial int64) {
	v <- initial
	for {
		v <- <-u
	}
}

func sum(w chan<- int64, n int64) {
	var s int64
	for i := int64(0); i < n; i++ {
		s = (s*31 + i) % 1000003
	}
	w <- s
	close(w)
}

// report writes what a source gives, as a report does.
func report(name string, source func(put func(int64))) {
	out := bufio.NewWriterSize(os.Stdout, 1<<16)
	out.WriteString(name + ":")
	var text []byte
	source(func(v int64) {
		text = strconv.AppendInt(append(text[:0], ' '), v, 10)
		out.Write(text)
	})
	out.WriteString("\n")
	out.Flush()
}

func all(w <-chan int64) func(func(int64)) {
	return func(put func(int64)) {
		for v := range w {
			put(v)
		}
	}
}

func main() {
	n, _ := strconv.ParseInt(os.Args[2], 10, 64)
	room, _ = strconv.Atoi(os.Args[3])
	w := channel()
	switch os.Args[1] {
	case "pipeline":
		x0, x1, x2 := channel(), channel(), channel()
		go count(x0, n)
		go copyAll(x0, x1)
		go copyAll(x1, x2)
		go copyAll(x2, w)
		report("W", all(w))
	case "sample":
		x, y, z, t1, t2 := channel(), channel(), channel(), channel(), channel()
		go g(x, t1, t2)
		go h(t1, y, 0)
		go h(t2, z, 1)
		report("print 1 f", func(put func(int64)) { f(y, z, x, n, put) })
	case "pipelines":
		var outputs [64]chan int64
		for k := range outputs {
			x := channel()
			outputs[k] = make(chan int64, n)
			go count(x, n)
			go copyAll(x, outputs[k])
		}
		for k := range outputs {
			report("W"+strconv.Itoa(k), all(outputs[k]))
		}
	case "arithmetic":
		go sum(w, n)
		report("W", all(w))
	}
}
