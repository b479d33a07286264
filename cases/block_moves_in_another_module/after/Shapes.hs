module Shapes (surface) where

surface w h = scaled where
  scaled = w * h
