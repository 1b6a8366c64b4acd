{-# LANGUAGE BangPatterns #-}
{-# OPTIONS_GHC -fno-full-laziness -fno-cse #-}
-- The workloads of bench/ as lazy lists: a process is a function on lists, and a network a system of equations.
--
--   ghc -O2 beside.hs; ./beside WORKLOAD SIZE      pipeline, sample, pipelines or arithmetic
module Main where

import qualified Data.ByteString.Builder as B
import Data.Int (Int64)
import System.Environment (getArgs)
import System.IO (BufferMode (..), hSetBinaryMode, hSetBuffering, stdout)

count :: Int64 -> [Int64]
count n = go 0 where go !i = if i < n then i : go (i + 1) else []
{-# NOINLINE count #-}

copy :: [Int64] -> [Int64]
copy [] = []
copy (v : u) = v : copy u
{-# NOINLINE copy #-}

f :: Int64 -> Bool -> [Int64] -> [Int64] -> [Int64]
f 0 _ _ _ = []
f m True ~(i : u) v = i : f (m - 1) False u v
f m False u ~(i : v) = i : f (m - 1) True u v

g :: [Int64] -> ([Int64], [Int64])
g [] = ([], [])
g (i : u) = let (w, v) = g u in (i : v, w)

h :: Int64 -> [Int64] -> [Int64]
h i u = i : u

total :: Int64 -> [Int64]
total n = go 0 0
  where
    go !i !s = if i < n then go (i + 1) ((s * 31 + i) `rem` 1000003) else [s]

line :: String -> [Int64] -> IO ()
line name vs = B.hPutBuilder stdout (B.string7 name <> B.char7 ':' <> foldMap (\v -> B.char7 ' ' <> B.int64Dec v) vs <> B.char7 '\n')

main :: IO ()
main = do
  [workload, size] <- getArgs
  hSetBinaryMode stdout True
  hSetBuffering stdout (BlockBuffering (Just 65536))
  let n = read size
  case workload of
    "pipeline" -> line "W" (copy (copy (copy (count n))))
    "sample" ->
      let x = f n True y z
          (t1, t2) = g x
          y = h 0 t1
          z = h 1 t2
       in line "print 1 f" x
    "pipelines" -> mapM_ (\k -> line ('W' : show k) (copy (count (n + 0 * k)))) [0 .. 63]
    "arithmetic" -> line "W" (total n)
    _ -> fail "pipeline, sample, pipelines or arithmetic"
